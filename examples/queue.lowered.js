function drain(queue, limit = (() => {
  var _queue$limit;
  return (_queue$limit = queue === null || queue === void 0 ? void 0 : queue.limit) !== null && _queue$limit !== void 0 ? _queue$limit : 10;
})()) {
  var _queue$items;
  let done = 0;
  while (((_queue$items = queue.items) === null || _queue$items === void 0 ? void 0 : _queue$items.length) && done < limit) {
    const job = queue.items.shift();
    switch (job === null || job === void 0 ? void 0 : job.kind) {
      case "skip":
        continue;
      case "retry":
        var _job$delay;
        job.tries || (job.tries = 1);
        job.delay = Math.pow(((_job$delay = job.delay) !== null && _job$delay !== void 0 ? _job$delay : 1), job.tries);
        break;
      default:
        var _job$run;
        job === null || job === void 0 || (_job$run = job.run) === null || _job$run === void 0 ? void 0 : _job$run.call(job, done);
    }
    done++;
  }
  return done;
}
