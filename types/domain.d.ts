// What the recorders, the lowering and the harness speak of. docs/LOG_FORMAT.md describes documents.

declare namespace wmlab {
  /** An exported function with its arguments, as unsigned integers in a log. */
  interface Start {
    name: string;
    args: bigint[];
  }

  /** An event: its kind (`r`, `w`, `x`), its order, address, width and values; JSON, so its items have several types. */
  type LogEvent = any[];
  /** The thread and the number of an event; nothing for the initial memory. */
  type Key = number[];
  /** How a thread ended: what it returned, the name of its trap, or why it was cut (`tired`), if it may have been at its end. */
  type End = [kind: 'done' | 'trap' | 'cut', what?: any];
  /** The ends of all threads in one string. */
  type Outcome = string;

  type Mode = 'locked' | 'buffered' | 'free';
  /** How an engine is wrong on purpose. */
  type Wrong = 'plain-atomics' | 'torn-store' | 'stale-load';
  /** A turn of a schedule: 2 T is the next access of thread T, and 2 T + 1 the publication of its oldest waiting store. */
  type Turn = number;

  interface RecorderOptions {
    mode?: Mode;
    /** The most events of a round. */
    events?: number;
    /** The most accesses of a turn. */
    turn?: number;
    wrong?: Wrong | null;
  }

  /** A round of a recorder. An open one has no witness yet. */
  interface Round {
    ends: End[];
    document: string;
    isOpen: boolean;
    turns: Turn[];
    /** At its end, the events alone if no witness was found. */
    logs?: AsyncIterator<string, string | null>;
  }

  /** What records rounds: the recorder of node, or the one of a browser. */
  interface Recorder {
    round(seed: number, items?: Turn[] | null): Promise<Round>;
    setEvents(events: number): void;
    close(): unknown;
    initial: Uint8Array;
    version?: string;
  }

  /** A document with the verdict's line. */
  interface Answer {
    document: string;
    line: string;
  }

  /** What was found in a round. */
  interface Found extends Answer {
    number: number;
    outcome: Outcome;
    ends: End[];
    turns: Turn[];
  }

  /** A log that is kept at a path, with its explanation, and its picture or why there is none. */
  interface Kept extends Found {
    path: string;
    explanation: string;
    graph: string | null;
    svg: string | null;
    fault: string | null;
  }

  /** What a condition says of a thread's end: that it is one of some, or none of them. Values are decimal. */
  interface Pattern {
    isAny: boolean;
    isNegated: boolean;
    ends: string[];
  }

  /** A condition of a command line: a pattern for each thread, and whether no run, some run or each has to fit it. */
  interface Condition {
    option: string;
    kind: 'never' | 'some' | 'all';
    text: string;
    ends: Pattern[];
  }

  /** What came of a condition. */
  interface Judged {
    condition: Condition;
    found: Found | null;
    fails: boolean;
    line: string;
  }

  /** What a user's interrupt sets. */
  interface Stop {
    requested?: boolean;
  }

  /** The limits of a search, or of making a run smaller. */
  interface Limits {
    steps?: number;
    seconds?: number;
    tries?: number;
    isStrict?: boolean;
    stop?: Stop;
  }

  /** Who answers for logs. */
  interface Judge {
    judge(document: string, ends: End[]): Promise<Answer>;
    /** What the rules say of a document's values, whatever its writers and its order. */
    settle(document: string, ends: End[], limits?: { seconds?: number; nodes?: number | null }): Promise<Answer>;
    ask(command: string, document: string): Promise<{ text: string; status: number | null }>;
    version(): Promise<string>;
    close(): void;
  }

  /** The memory of a rewritten module: how it is imported, its limits in pages, and the bytes of these limits. */
  interface ImportedMemory {
    module: string;
    name: string;
    bytes: number[];
    initial: number;
    maximum: number;
  }

  type ValueType = 'i32' | 'i64';

  /** An access to memory. */
  interface Access {
    /** The opcode; 0xfe00 and the code after it for those with the prefix FE. */
    code: number;
    name: string;
    kind: 'load' | 'store' | 'update' | 'exchange';
    type: ValueType;
    /** Bytes. */
    width: number;
    atomic: boolean;
    /** Whether a narrow load extends the sign. */
    signed: boolean;
    /** Of an update. */
    operator: string;
  }
}
