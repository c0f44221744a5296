class Counter extends Emitter {
  constructor(start) {
    super();
    this.count = start;
    this.on("step", size => {
      this.count += size;
    });
  }
}
