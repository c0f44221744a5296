var _object$foo2;
_object$foo;
(_object$foo2 = object.foo) !== null && _object$foo2 !== void 0 ? _object$foo2 : 1;
