CoreASM Note
init Main
/* The main rule rests.
rule Main = skip
