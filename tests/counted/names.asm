CoreASM Names
init Main

// Six hundred names, each of which stands twice in the rule. A run without steps looks for them
// where the text is checked, and where the pass makes its code.

enum Name = {
  n0, n1, n2, n3, n4, n5, n6, n7, n8, n9, n10, n11, n12, n13, n14, n15, n16, n17, n18, n19, n20,
  n21, n22, n23, n24, n25, n26, n27, n28, n29, n30, n31, n32, n33, n34, n35, n36, n37, n38, n39,
  n40, n41, n42, n43, n44, n45, n46, n47, n48, n49, n50, n51, n52, n53, n54, n55, n56, n57, n58,
  n59, n60, n61, n62, n63, n64, n65, n66, n67, n68, n69, n70, n71, n72, n73, n74, n75, n76, n77,
  n78, n79, n80, n81, n82, n83, n84, n85, n86, n87, n88, n89, n90, n91, n92, n93, n94, n95, n96,
  n97, n98, n99, n100, n101, n102, n103, n104, n105, n106, n107, n108, n109, n110, n111, n112,
  n113, n114, n115, n116, n117, n118, n119, n120, n121, n122, n123, n124, n125, n126, n127, n128,
  n129, n130, n131, n132, n133, n134, n135, n136, n137, n138, n139, n140, n141, n142, n143, n144,
  n145, n146, n147, n148, n149, n150, n151, n152, n153, n154, n155, n156, n157, n158, n159, n160,
  n161, n162, n163, n164, n165, n166, n167, n168, n169, n170, n171, n172, n173, n174, n175, n176,
  n177, n178, n179, n180, n181, n182, n183, n184, n185, n186, n187, n188, n189, n190, n191, n192,
  n193, n194, n195, n196, n197, n198, n199, n200, n201, n202, n203, n204, n205, n206, n207, n208,
  n209, n210, n211, n212, n213, n214, n215, n216, n217, n218, n219, n220, n221, n222, n223, n224,
  n225, n226, n227, n228, n229, n230, n231, n232, n233, n234, n235, n236, n237, n238, n239, n240,
  n241, n242, n243, n244, n245, n246, n247, n248, n249, n250, n251, n252, n253, n254, n255, n256,
  n257, n258, n259, n260, n261, n262, n263, n264, n265, n266, n267, n268, n269, n270, n271, n272,
  n273, n274, n275, n276, n277, n278, n279, n280, n281, n282, n283, n284, n285, n286, n287, n288,
  n289, n290, n291, n292, n293, n294, n295, n296, n297, n298, n299, n300, n301, n302, n303, n304,
  n305, n306, n307, n308, n309, n310, n311, n312, n313, n314, n315, n316, n317, n318, n319, n320,
  n321, n322, n323, n324, n325, n326, n327, n328, n329, n330, n331, n332, n333, n334, n335, n336,
  n337, n338, n339, n340, n341, n342, n343, n344, n345, n346, n347, n348, n349, n350, n351, n352,
  n353, n354, n355, n356, n357, n358, n359, n360, n361, n362, n363, n364, n365, n366, n367, n368,
  n369, n370, n371, n372, n373, n374, n375, n376, n377, n378, n379, n380, n381, n382, n383, n384,
  n385, n386, n387, n388, n389, n390, n391, n392, n393, n394, n395, n396, n397, n398, n399, n400,
  n401, n402, n403, n404, n405, n406, n407, n408, n409, n410, n411, n412, n413, n414, n415, n416,
  n417, n418, n419, n420, n421, n422, n423, n424, n425, n426, n427, n428, n429, n430, n431, n432,
  n433, n434, n435, n436, n437, n438, n439, n440, n441, n442, n443, n444, n445, n446, n447, n448,
  n449, n450, n451, n452, n453, n454, n455, n456, n457, n458, n459, n460, n461, n462, n463, n464,
  n465, n466, n467, n468, n469, n470, n471, n472, n473, n474, n475, n476, n477, n478, n479, n480,
  n481, n482, n483, n484, n485, n486, n487, n488, n489, n490, n491, n492, n493, n494, n495, n496,
  n497, n498, n499, n500, n501, n502, n503, n504, n505, n506, n507, n508, n509, n510, n511, n512,
  n513, n514, n515, n516, n517, n518, n519, n520, n521, n522, n523, n524, n525, n526, n527, n528,
  n529, n530, n531, n532, n533, n534, n535, n536, n537, n538, n539, n540, n541, n542, n543, n544,
  n545, n546, n547, n548, n549, n550, n551, n552, n553, n554, n555, n556, n557, n558, n559, n560,
  n561, n562, n563, n564, n565, n566, n567, n568, n569, n570, n571, n572, n573, n574, n575, n576,
  n577, n578, n579, n580, n581, n582, n583, n584, n585, n586, n587, n588, n589, n590, n591, n592,
  n593, n594, n595, n596, n597, n598, n599
}
function controlled next : Name -> Name

rule Main = par
  next(n0) := n3 next(n1) := n10 next(n2) := n17 next(n3) := n24
  next(n4) := n31 next(n5) := n38 next(n6) := n45 next(n7) := n52
  next(n8) := n59 next(n9) := n66 next(n10) := n73 next(n11) := n80
  next(n12) := n87 next(n13) := n94 next(n14) := n101 next(n15) := n108
  next(n16) := n115 next(n17) := n122 next(n18) := n129 next(n19) := n136
  next(n20) := n143 next(n21) := n150 next(n22) := n157 next(n23) := n164
  next(n24) := n171 next(n25) := n178 next(n26) := n185 next(n27) := n192
  next(n28) := n199 next(n29) := n206 next(n30) := n213 next(n31) := n220
  next(n32) := n227 next(n33) := n234 next(n34) := n241 next(n35) := n248
  next(n36) := n255 next(n37) := n262 next(n38) := n269 next(n39) := n276
  next(n40) := n283 next(n41) := n290 next(n42) := n297 next(n43) := n304
  next(n44) := n311 next(n45) := n318 next(n46) := n325 next(n47) := n332
  next(n48) := n339 next(n49) := n346 next(n50) := n353 next(n51) := n360
  next(n52) := n367 next(n53) := n374 next(n54) := n381 next(n55) := n388
  next(n56) := n395 next(n57) := n402 next(n58) := n409 next(n59) := n416
  next(n60) := n423 next(n61) := n430 next(n62) := n437 next(n63) := n444
  next(n64) := n451 next(n65) := n458 next(n66) := n465 next(n67) := n472
  next(n68) := n479 next(n69) := n486 next(n70) := n493 next(n71) := n500
  next(n72) := n507 next(n73) := n514 next(n74) := n521 next(n75) := n528
  next(n76) := n535 next(n77) := n542 next(n78) := n549 next(n79) := n556
  next(n80) := n563 next(n81) := n570 next(n82) := n577 next(n83) := n584
  next(n84) := n591 next(n85) := n598 next(n86) := n5 next(n87) := n12
  next(n88) := n19 next(n89) := n26 next(n90) := n33 next(n91) := n40
  next(n92) := n47 next(n93) := n54 next(n94) := n61 next(n95) := n68
  next(n96) := n75 next(n97) := n82 next(n98) := n89 next(n99) := n96
  next(n100) := n103 next(n101) := n110 next(n102) := n117 next(n103) := n124
  next(n104) := n131 next(n105) := n138 next(n106) := n145 next(n107) := n152
  next(n108) := n159 next(n109) := n166 next(n110) := n173 next(n111) := n180
  next(n112) := n187 next(n113) := n194 next(n114) := n201 next(n115) := n208
  next(n116) := n215 next(n117) := n222 next(n118) := n229 next(n119) := n236
  next(n120) := n243 next(n121) := n250 next(n122) := n257 next(n123) := n264
  next(n124) := n271 next(n125) := n278 next(n126) := n285 next(n127) := n292
  next(n128) := n299 next(n129) := n306 next(n130) := n313 next(n131) := n320
  next(n132) := n327 next(n133) := n334 next(n134) := n341 next(n135) := n348
  next(n136) := n355 next(n137) := n362 next(n138) := n369 next(n139) := n376
  next(n140) := n383 next(n141) := n390 next(n142) := n397 next(n143) := n404
  next(n144) := n411 next(n145) := n418 next(n146) := n425 next(n147) := n432
  next(n148) := n439 next(n149) := n446 next(n150) := n453 next(n151) := n460
  next(n152) := n467 next(n153) := n474 next(n154) := n481 next(n155) := n488
  next(n156) := n495 next(n157) := n502 next(n158) := n509 next(n159) := n516
  next(n160) := n523 next(n161) := n530 next(n162) := n537 next(n163) := n544
  next(n164) := n551 next(n165) := n558 next(n166) := n565 next(n167) := n572
  next(n168) := n579 next(n169) := n586 next(n170) := n593 next(n171) := n0
  next(n172) := n7 next(n173) := n14 next(n174) := n21 next(n175) := n28
  next(n176) := n35 next(n177) := n42 next(n178) := n49 next(n179) := n56
  next(n180) := n63 next(n181) := n70 next(n182) := n77 next(n183) := n84
  next(n184) := n91 next(n185) := n98 next(n186) := n105 next(n187) := n112
  next(n188) := n119 next(n189) := n126 next(n190) := n133 next(n191) := n140
  next(n192) := n147 next(n193) := n154 next(n194) := n161 next(n195) := n168
  next(n196) := n175 next(n197) := n182 next(n198) := n189 next(n199) := n196
  next(n200) := n203 next(n201) := n210 next(n202) := n217 next(n203) := n224
  next(n204) := n231 next(n205) := n238 next(n206) := n245 next(n207) := n252
  next(n208) := n259 next(n209) := n266 next(n210) := n273 next(n211) := n280
  next(n212) := n287 next(n213) := n294 next(n214) := n301 next(n215) := n308
  next(n216) := n315 next(n217) := n322 next(n218) := n329 next(n219) := n336
  next(n220) := n343 next(n221) := n350 next(n222) := n357 next(n223) := n364
  next(n224) := n371 next(n225) := n378 next(n226) := n385 next(n227) := n392
  next(n228) := n399 next(n229) := n406 next(n230) := n413 next(n231) := n420
  next(n232) := n427 next(n233) := n434 next(n234) := n441 next(n235) := n448
  next(n236) := n455 next(n237) := n462 next(n238) := n469 next(n239) := n476
  next(n240) := n483 next(n241) := n490 next(n242) := n497 next(n243) := n504
  next(n244) := n511 next(n245) := n518 next(n246) := n525 next(n247) := n532
  next(n248) := n539 next(n249) := n546 next(n250) := n553 next(n251) := n560
  next(n252) := n567 next(n253) := n574 next(n254) := n581 next(n255) := n588
  next(n256) := n595 next(n257) := n2 next(n258) := n9 next(n259) := n16
  next(n260) := n23 next(n261) := n30 next(n262) := n37 next(n263) := n44
  next(n264) := n51 next(n265) := n58 next(n266) := n65 next(n267) := n72
  next(n268) := n79 next(n269) := n86 next(n270) := n93 next(n271) := n100
  next(n272) := n107 next(n273) := n114 next(n274) := n121 next(n275) := n128
  next(n276) := n135 next(n277) := n142 next(n278) := n149 next(n279) := n156
  next(n280) := n163 next(n281) := n170 next(n282) := n177 next(n283) := n184
  next(n284) := n191 next(n285) := n198 next(n286) := n205 next(n287) := n212
  next(n288) := n219 next(n289) := n226 next(n290) := n233 next(n291) := n240
  next(n292) := n247 next(n293) := n254 next(n294) := n261 next(n295) := n268
  next(n296) := n275 next(n297) := n282 next(n298) := n289 next(n299) := n296
  next(n300) := n303 next(n301) := n310 next(n302) := n317 next(n303) := n324
  next(n304) := n331 next(n305) := n338 next(n306) := n345 next(n307) := n352
  next(n308) := n359 next(n309) := n366 next(n310) := n373 next(n311) := n380
  next(n312) := n387 next(n313) := n394 next(n314) := n401 next(n315) := n408
  next(n316) := n415 next(n317) := n422 next(n318) := n429 next(n319) := n436
  next(n320) := n443 next(n321) := n450 next(n322) := n457 next(n323) := n464
  next(n324) := n471 next(n325) := n478 next(n326) := n485 next(n327) := n492
  next(n328) := n499 next(n329) := n506 next(n330) := n513 next(n331) := n520
  next(n332) := n527 next(n333) := n534 next(n334) := n541 next(n335) := n548
  next(n336) := n555 next(n337) := n562 next(n338) := n569 next(n339) := n576
  next(n340) := n583 next(n341) := n590 next(n342) := n597 next(n343) := n4
  next(n344) := n11 next(n345) := n18 next(n346) := n25 next(n347) := n32
  next(n348) := n39 next(n349) := n46 next(n350) := n53 next(n351) := n60
  next(n352) := n67 next(n353) := n74 next(n354) := n81 next(n355) := n88
  next(n356) := n95 next(n357) := n102 next(n358) := n109 next(n359) := n116
  next(n360) := n123 next(n361) := n130 next(n362) := n137 next(n363) := n144
  next(n364) := n151 next(n365) := n158 next(n366) := n165 next(n367) := n172
  next(n368) := n179 next(n369) := n186 next(n370) := n193 next(n371) := n200
  next(n372) := n207 next(n373) := n214 next(n374) := n221 next(n375) := n228
  next(n376) := n235 next(n377) := n242 next(n378) := n249 next(n379) := n256
  next(n380) := n263 next(n381) := n270 next(n382) := n277 next(n383) := n284
  next(n384) := n291 next(n385) := n298 next(n386) := n305 next(n387) := n312
  next(n388) := n319 next(n389) := n326 next(n390) := n333 next(n391) := n340
  next(n392) := n347 next(n393) := n354 next(n394) := n361 next(n395) := n368
  next(n396) := n375 next(n397) := n382 next(n398) := n389 next(n399) := n396
  next(n400) := n403 next(n401) := n410 next(n402) := n417 next(n403) := n424
  next(n404) := n431 next(n405) := n438 next(n406) := n445 next(n407) := n452
  next(n408) := n459 next(n409) := n466 next(n410) := n473 next(n411) := n480
  next(n412) := n487 next(n413) := n494 next(n414) := n501 next(n415) := n508
  next(n416) := n515 next(n417) := n522 next(n418) := n529 next(n419) := n536
  next(n420) := n543 next(n421) := n550 next(n422) := n557 next(n423) := n564
  next(n424) := n571 next(n425) := n578 next(n426) := n585 next(n427) := n592
  next(n428) := n599 next(n429) := n6 next(n430) := n13 next(n431) := n20
  next(n432) := n27 next(n433) := n34 next(n434) := n41 next(n435) := n48
  next(n436) := n55 next(n437) := n62 next(n438) := n69 next(n439) := n76
  next(n440) := n83 next(n441) := n90 next(n442) := n97 next(n443) := n104
  next(n444) := n111 next(n445) := n118 next(n446) := n125 next(n447) := n132
  next(n448) := n139 next(n449) := n146 next(n450) := n153 next(n451) := n160
  next(n452) := n167 next(n453) := n174 next(n454) := n181 next(n455) := n188
  next(n456) := n195 next(n457) := n202 next(n458) := n209 next(n459) := n216
  next(n460) := n223 next(n461) := n230 next(n462) := n237 next(n463) := n244
  next(n464) := n251 next(n465) := n258 next(n466) := n265 next(n467) := n272
  next(n468) := n279 next(n469) := n286 next(n470) := n293 next(n471) := n300
  next(n472) := n307 next(n473) := n314 next(n474) := n321 next(n475) := n328
  next(n476) := n335 next(n477) := n342 next(n478) := n349 next(n479) := n356
  next(n480) := n363 next(n481) := n370 next(n482) := n377 next(n483) := n384
  next(n484) := n391 next(n485) := n398 next(n486) := n405 next(n487) := n412
  next(n488) := n419 next(n489) := n426 next(n490) := n433 next(n491) := n440
  next(n492) := n447 next(n493) := n454 next(n494) := n461 next(n495) := n468
  next(n496) := n475 next(n497) := n482 next(n498) := n489 next(n499) := n496
  next(n500) := n503 next(n501) := n510 next(n502) := n517 next(n503) := n524
  next(n504) := n531 next(n505) := n538 next(n506) := n545 next(n507) := n552
  next(n508) := n559 next(n509) := n566 next(n510) := n573 next(n511) := n580
  next(n512) := n587 next(n513) := n594 next(n514) := n1 next(n515) := n8
  next(n516) := n15 next(n517) := n22 next(n518) := n29 next(n519) := n36
  next(n520) := n43 next(n521) := n50 next(n522) := n57 next(n523) := n64
  next(n524) := n71 next(n525) := n78 next(n526) := n85 next(n527) := n92
  next(n528) := n99 next(n529) := n106 next(n530) := n113 next(n531) := n120
  next(n532) := n127 next(n533) := n134 next(n534) := n141 next(n535) := n148
  next(n536) := n155 next(n537) := n162 next(n538) := n169 next(n539) := n176
  next(n540) := n183 next(n541) := n190 next(n542) := n197 next(n543) := n204
  next(n544) := n211 next(n545) := n218 next(n546) := n225 next(n547) := n232
  next(n548) := n239 next(n549) := n246 next(n550) := n253 next(n551) := n260
  next(n552) := n267 next(n553) := n274 next(n554) := n281 next(n555) := n288
  next(n556) := n295 next(n557) := n302 next(n558) := n309 next(n559) := n316
  next(n560) := n323 next(n561) := n330 next(n562) := n337 next(n563) := n344
  next(n564) := n351 next(n565) := n358 next(n566) := n365 next(n567) := n372
  next(n568) := n379 next(n569) := n386 next(n570) := n393 next(n571) := n400
  next(n572) := n407 next(n573) := n414 next(n574) := n421 next(n575) := n428
  next(n576) := n435 next(n577) := n442 next(n578) := n449 next(n579) := n456
  next(n580) := n463 next(n581) := n470 next(n582) := n477 next(n583) := n484
  next(n584) := n491 next(n585) := n498 next(n586) := n505 next(n587) := n512
  next(n588) := n519 next(n589) := n526 next(n590) := n533 next(n591) := n540
  next(n592) := n547 next(n593) := n554 next(n594) := n561 next(n595) := n568
  next(n596) := n575 next(n597) := n582 next(n598) := n589 next(n599) := n596
endpar
