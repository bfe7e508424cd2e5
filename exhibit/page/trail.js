// The steps that each marker has made of its job, as the page saw them: a look has the events of the last row alone.
export class Trail {
  constructor() { this.rows = []; }

  get length() { return this.rows.length; }

  // Adds what an office shows after a row.
  add({ events, markers }) {
    this.rows.push({ events, jobs: markers.map(it => it.job?.number) });
  }

  // Forgets all rows but the first.
  cut(length) { this.rows.length = Math.min(this.rows.length, length); }

  // The steps of a marker since it was given this job.
  stepsOf(marker, job) {
    let steps = [];
    for (let at = this.rows.length - 1; at >= 0 && this.rows[at].jobs[marker] === job; at--) {
      const own = this.rows[at].events.filter(it => it.marker === marker);
      const begun = own.findIndex(it => it.event === 'assignment' && it.job.number === job);
      steps = [...own.slice(begun + 1).filter(it => it.event === 'step'), ...steps];
    }
    return steps;
  }
}
