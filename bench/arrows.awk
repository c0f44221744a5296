# Prints the tree of a script of n functions `function fI() { return () => this; }`, or, with one=1, of one statement with n arrows `() => this`
# as arguments of a call.
function name(text) { return "{\"type\":\"Identifier\",\"name\":\"" text "\"}" }
BEGIN {
  printf "{\"type\":\"Program\",\"sourceType\":\"script\",\"body\":["
  arrow = "{\"type\":\"ArrowFunctionExpression\",\"params\":[],\"body\":{\"type\":\"ThisExpression\"}}"
  if (one) {
    printf "{\"type\":\"ExpressionStatement\",\"expression\":{\"type\":\"CallExpression\",\"callee\":%s,\"arguments\":[", name("f")
    for (i = 0; i < n; i++) printf "%s%s", (i ? "," : ""), arrow
    printf "]}}"
  } else {
    body = "{\"type\":\"FunctionBody\",\"body\":[{\"type\":\"ReturnStatement\",\"argument\":" arrow "}]}"
    for (i = 0; i < n; i++) printf "%s{\"type\":\"FunctionDeclaration\",\"id\":%s,\"params\":[],\"body\":%s}", (i ? "," : ""), name("f" i), body
  }
  printf "]}\n"
}
