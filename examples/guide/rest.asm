CoreASM Rest
use Standard
init Rest
/* A comment of
   two lines. */
rule Rest = skip // Another one.
