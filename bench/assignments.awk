# Prints the tree of a script of n statements `x = { aI, [k]: bI, ...cI } = d;`, or, with one=1, of one such statement with n computed keys.
function name(text) { return "{\"type\":\"Identifier\",\"name\":\"" text "\"}" }
function plain(target) { return "{\"type\":\"Property\",\"shorthand\":true,\"key\":" name(target) ",\"value\":" name(target) "}" }
function keyed(target) { return "{\"type\":\"Property\",\"computed\":true,\"key\":" name("k") ",\"value\":" name(target) "}" }
function assigned(left, right) { return "{\"type\":\"AssignmentExpression\",\"operator\":\"=\",\"left\":" left ",\"right\":" right "}" }
function statement(properties, rest) {
  pattern = "{\"type\":\"ObjectPattern\",\"properties\":[" properties ",{\"type\":\"RestElement\",\"argument\":" name(rest) "}]}"
  return "{\"type\":\"ExpressionStatement\",\"expression\":" assigned(name("x"), assigned(pattern, name("d"))) "}"
}
BEGIN {
  printf "{\"type\":\"Program\",\"sourceType\":\"script\",\"body\":["
  if (one) {
    for (i = 0; i < n; i++) properties = properties (i ? "," : "") keyed("b" i)
    printf "%s", statement(properties, "c")
  } else {
    for (i = 0; i < n; i++) printf "%s%s", (i ? "," : ""), statement(plain("a" i) "," keyed("b" i), "c" i)
  }
  printf "]}\n"
}
