# Prints the tree of a script of n statements `vI = { ...a, b: c, ...d }`, or, with one=1, of one statement with n spreads in its literal.
function name(text) { return "{\"type\":\"Identifier\",\"name\":\"" text "\"}" }
function spread(text) { return "{\"type\":\"SpreadElement\",\"argument\":" name(text) "}" }
function statement(target, properties,   literal) {
  literal = "{\"type\":\"ObjectExpression\",\"properties\":[" properties "]}"
  return "{\"type\":\"ExpressionStatement\",\"expression\":{\"type\":\"AssignmentExpression\",\"operator\":\"=\",\"left\":" name(target) ",\"right\":" literal "}}"
}
BEGIN {
  printf "{\"type\":\"Program\",\"sourceType\":\"script\",\"body\":["
  property = "{\"type\":\"Property\",\"kind\":\"init\",\"key\":" name("b") ",\"value\":" name("c") "}"
  if (one) {
    for (i = 0; i < n; i++) spreads = spreads (i ? "," : "") spread("a")
    printf "%s", statement("v", spreads)
  } else {
    for (i = 0; i < n; i++) printf "%s%s", (i ? "," : ""), statement("v" i, spread("a") "," property "," spread("d"))
  }
  printf "]}\n"
}
