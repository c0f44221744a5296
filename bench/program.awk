# Prints the tree of a script of n statements `vI = oI.p ?? d`, or, with same=1, `vI = o.p ?? d`,
# whose fresh names all have one base.
function name(text) { return "{\"type\":\"Identifier\",\"name\":\"" text "\"}" }
BEGIN {
  printf "{\"type\":\"Program\",\"sourceType\":\"script\",\"body\":["
  for (i = 0; i < n; i++) {
    member = "{\"type\":\"MemberExpression\",\"object\":" name("o" (same ? "" : i "x")) ",\"property\":" name("p") "}"
    nullish = "{\"type\":\"LogicalExpression\",\"operator\":\"??\",\"left\":" member ",\"right\":" name("d") "}"
    assignment = "{\"type\":\"AssignmentExpression\",\"operator\":\"=\",\"left\":" name("v" i) ",\"right\":" nullish "}"
    printf "%s{\"type\":\"ExpressionStatement\",\"expression\":%s}", (i ? "," : ""), assignment
  }
  printf "]}\n"
}
