function Timer(name) {
  this.seconds = 0;
  setInterval(() => {
    this.seconds += 1;
    show(name, this.seconds);
  }, 1000);
}
