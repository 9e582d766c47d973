/** All runs of a machine with store buffers, one after the other, over a few events: no move is left out or put first. */

import { partsOf } from './machine.mjs';

const byteOf = (value, k) => Number((value >> BigInt(8 * k)) & 255n);

/** An event as this machine makes it. In a weak machine atomic loads and stores wait in no order, but are not torn. */
function partsOfEvent([kind, order, address, width, ...values], isWeak) {
  const isAtomic = order === 'sc' && (kind === 'x' || !isWeak);
  const parts = partsOf(address, width, order === 'sc');
  return { isAtomic, address, parts, read: kind === 'w' ? null : values[0], written: kind === 'r' ? null : values.at(-1) };
}

/** A state: the bytes of the memory, and for each thread its next event, the parts of it that were read, and its waiting stores. */
class State {
  constructor(memory, threads) {
    this.memory = memory;
    this.threads = threads;
  }

  copy() {
    const threads = this.threads.map(({ next, taken, waiting }) => (
      { next, taken: [...taken], waiting: waiting.map(({ event, left }) => ({ event, left: [...left] })) }));
    return new State([...this.memory], threads);
  }

  key() {
    return JSON.stringify([this.memory, this.threads]);
  }

  /** The byte that a thread sees: that of its newest store with a part there that still waits, else that of the memory. */
  byteAt(events, thread, at) {
    const isThere = ({ event, left }) => left.some((part) => {
      const { address, parts } = events[event];
      return at >= address + parts[part][0] && at < address + parts[part][1];
    });
    const store = this.threads[thread].waiting.findLast(isThere);
    return store ? byteOf(events[store.event].written, at - events[store.event].address) : this.memory[at];
  }

  hasValue(events, thread, { address, read }, [from, end]) {
    for (let k = from; k < end; k++) if (this.byteAt(events, thread, address + k) !== byteOf(read, k)) return false;
    return true;
  }

  write({ address, written }, [from, end]) {
    for (let k = from; k < end; k++) this.memory[address + k] = byteOf(written, k);
  }
}

/** The states after one move of a thread: a part of its oldest store is published, or its next event or a part of it is made. */
function* movesOf(state, events, thread) {
  const { next, taken, waiting } = state.threads[thread];
  const after = (change) => { const copy = state.copy(); change(copy, copy.threads[thread]); return copy; };
  for (const part of waiting[0]?.left ?? []) {
    yield after((copy, own) => {
      copy.write(events[waiting[0].event], events[waiting[0].event].parts[part]);
      own.waiting[0].left = own.waiting[0].left.filter((other) => other !== part);
      if (!own.waiting[0].left.length) own.waiting.shift();
    });
  }
  const event = events[next];
  if (!event || (event.isAtomic && event.written !== null && waiting.length)) return;
  const goOn = (own) => { own.next++; own.taken = []; };
  if (event.read !== null) {
    const open = event.parts.flatMap((part, number) => (taken.includes(number) ? [] : [[number, part]]));
    for (const [number, part] of open) {
      if (!state.hasValue(events, thread, event, part)) continue;
      yield after((copy, own) => {
        own.taken = [...own.taken, number].sort();
        if (own.taken.length < event.parts.length) return;
        if (event.written !== null) copy.write(event, event.parts[0]);
        goOn(own);
      });
    }
  } else if (event.isAtomic) yield after((copy, own) => { copy.write(event, event.parts[0]); goOn(own); });
  else yield after((copy, own) => { own.waiting.push({ event: next, left: event.parts.map((_, part) => part) }); goOn(own); });
}

/** Whether some run of the machine over a memory of so many zeros gives each read its value. */
export function hasRun(threads, size, { isWeak = false } = {}) {
  const events = threads.map((each) => each.map((event) => partsOfEvent(event, isWeak)));
  const start = new State(Array(size).fill(0), threads.map(() => ({ next: 0, taken: [], waiting: [] })));
  const seen = new Set([start.key()]);
  const open = [start];
  for (let state = open.pop(); state; state = open.pop()) {
    if (state.threads.every(({ next }, thread) => next === events[thread].length)) return true;
    for (const [thread] of threads.entries()) {
      for (const after of movesOf(state, events[thread], thread)) {
        const key = after.key();
        if (!seen.has(key)) open.push(after);
        seen.add(key);
      }
    }
  }
  return false;
}
