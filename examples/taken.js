_object$foo;
object.foo ?? 1;
