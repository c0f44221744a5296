function drain(queue, limit = queue?.limit ?? 10) {
  let done = 0;
  while (queue.items?.length && done < limit) {
    const job = queue.items.shift();
    switch (job?.kind) {
      case "skip":
        continue;
      case "retry":
        job.tries ||= 1;
        job.delay = (job.delay ?? 1) ** job.tries;
        break;
      default:
        job?.run?.(done);
    }
    done++;
  }
  return done;
}
