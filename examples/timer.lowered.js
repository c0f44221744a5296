function Timer(name) {
  var _this = this;
  this.seconds = 0;
  setInterval(function () {
    _this.seconds += 1;
    show(name, _this.seconds);
  }, 1000);
}
