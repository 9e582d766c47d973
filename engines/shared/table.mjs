/** Counts strings. */
export class Table {
  /** @type {Map<string, number>} */
  counts = new Map();

  add(text) {
    const count = (this.counts.get(text) ?? 0) + 1;
    this.counts.set(text, count);
    return count;
  }

  rows() {
    return [...this.counts].sort(([one, a], [other, b]) => b - a || (one < other ? -1 : 1));
  }

  /**
   * The rows as lines; `more(text)` is put at the end of each.
   *
   * @param {(text: string) => string} [more]
   */
  lines(more = () => '', most = 20) {
    const rows = this.rows();
    const shown = rows.slice(0, most).map(([text, count]) => `${String(count).padStart(8)}  ${text}${more(text)}`);
    return rows.length > most ? [...shown, `          and ${rows.length - most} others`] : shown;
  }
}

/** A verdict without the number of events, which differs from run to run. */
export const kindOf = (line) => line.replace(/ events=\d+$/, '');
