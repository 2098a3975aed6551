CoreASM Rest
init Main
rule Main = Rest()
rule Rest = skip
