class Counter extends Emitter {
  constructor(start) {
    var _this;
    super();
    _this = this;
    this.count = start;
    this.on("step", function (size) {
      _this.count += size;
    });
  }
}
