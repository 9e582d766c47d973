// What the scripts use of node, since Debian has its types only beside its own node. No more is declared: whoever uses
// another function of node adds it here.

declare class Buffer extends Uint8Array {
  static from(data: string, encoding?: BufferEncoding): Buffer;
  static from(data: ArrayLike<number> | ArrayBufferLike | Iterable<number>): Buffer;
  static from(data: ArrayBufferLike, offset: number, length?: number): Buffer;
  static alloc(size: number, fill?: number): Buffer;
  static concat(parts: readonly Uint8Array[]): Buffer;
  static of(...bytes: number[]): Buffer;
  toString(encoding?: BufferEncoding): string;
  equals(other: Uint8Array): boolean;
  compare(other: Uint8Array): number;
  readUInt32LE(offset?: number): number;
  writeUInt32LE(value: number, offset?: number): number;
  slice(start?: number, end?: number): Buffer;
  subarray(start?: number, end?: number): Buffer;
}

type BufferEncoding = 'utf8' | 'utf-8' | 'latin1' | 'hex' | 'base64' | 'ascii' | 'binary';

interface ReadableStream_ extends AsyncIterable<any> {
  setEncoding(encoding: BufferEncoding): this;
  on(event: 'data', listener: (chunk: any) => void): this;
  on(event: 'end' | 'close' | 'error', listener: (error: any) => void): this;
  once(event: string, listener: (value: any) => void): this;
  pipe<T>(to: T): T;
  resume(): this;
  destroy(): void;
  unref?(): void;
}

interface WritableStream_ {
  write(text: string | Uint8Array, done?: (error?: Error) => void): boolean;
  end(text?: string | Uint8Array): void;
  on(event: string, listener: (value: any) => void): this;
  once(event: string, listener: (value: any) => void): this;
  destroy(): void;
  readonly isTTY?: boolean;
  readonly columns?: number;
  readonly destroyed: boolean;
}

// Of ES2023, which this version of tsc does not know.
interface Array<T> {
  findLast(isIt: (item: T, index: number) => unknown): T | undefined;
}

declare namespace NodeJS {
  interface ErrnoException extends Error {
    code?: string;
    path?: string;
  }
  interface Timeout {
    unref(): this;
    ref(): this;
    refresh(): this;
  }
}

declare const process: {
  argv: string[];
  execArgv: string[];
  execPath: string;
  env: Record<string, string | undefined>;
  exitCode: number | undefined;
  pid: number;
  platform: string;
  stdin: ReadableStream_ & { isTTY?: boolean };
  stdout: WritableStream_;
  stderr: WritableStream_;
  versions: { node: string; v8: string };
  exit(status?: number): never;
  getuid(): number;
  kill(pid: number, signal?: string | number): void;
  on(event: string, listener: (...values: any[]) => void): void;
  once(event: string, listener: (...values: any[]) => void): void;
  off(event: string, listener: (...values: any[]) => void): void;
};

declare module 'node:fs' {
  type Path = string | URL | number;
  export const constants: { F_OK: number; R_OK: number; W_OK: number; X_OK: number };
  export function accessSync(path: Path, mode?: number): void;
  export function appendFileSync(path: Path, data: string | Uint8Array): void;
  export function chmodSync(path: Path, mode: number): void;
  export function cpSync(from: string | URL, to: string | URL, options?: { recursive?: boolean }): void;
  export function existsSync(path: Path): boolean;
  export function mkdirSync(path: Path, options?: { recursive?: boolean }): void;
  export function mkdtempSync(prefix: string): string;
  export function readFileSync(path: Path): Buffer;
  export function readFileSync(path: Path, encoding: BufferEncoding | { encoding: BufferEncoding }): string;
  export function readdirSync(path: Path, options?: { recursive?: boolean }): string[];
  export function readlinkSync(path: Path): string;
  export function realpathSync(path: Path): string;
  export function rmSync(path: Path, options?: { recursive?: boolean; force?: boolean; maxRetries?: number }): void;
  interface Stats {
    isFile(): boolean;
    isDirectory(): boolean;
    size: number;
    mode: number;
  }
  export function statSync(path: Path): Stats;
  export function statSync(path: Path, options: { throwIfNoEntry: false }): Stats | undefined;
  export function symlinkSync(target: string | URL, path: string | URL): void;
  export function writeFileSync(path: Path, data: string | Uint8Array, options?: { mode?: number; flag?: string }): void;
}

declare module 'node:url' {
  export function fileURLToPath(url: string | URL): string;
  export function pathToFileURL(path: string): URL;
}

declare module 'node:path' {
  export const delimiter: string;
  export function basename(path: string, ending?: string): string;
  export function dirname(path: string): string;
  export function extname(path: string): string;
  export function join(...parts: string[]): string;
  export function relative(from: string, to: string): string;
  export function resolve(...parts: string[]): string;
}

declare module 'node:os' {
  export function tmpdir(): string;
  export function homedir(): string;
  export function availableParallelism(): number;
}

declare module 'node:crypto' {
  export function randomUUID(): string;
  export function createHash(name: string): {
    update(data: string | Uint8Array): ReturnType<typeof createHash>;
    digest(): Buffer;
    digest(encoding: 'hex'): string;
  };
}

declare module 'node:v8' {
  export function setFlagsFromString(flags: string): void;
}

declare module 'node:timers/promises' {
  export function setTimeout<T = void>(milliseconds?: number, value?: T, options?: { ref?: boolean, signal?: AbortSignal }): Promise<T>;
}

declare module 'node:stream/consumers' {
  export function text(stream: AsyncIterable<any>): Promise<string>;
}

declare module 'node:readline' {
  export function createInterface(options: { input: ReadableStream_; crlfDelay?: number }): AsyncIterable<string> & {
    on(event: 'line', listener: (line: string) => void): void;
    on(event: 'close', listener: () => void): void;
    close(): void;
  };
}

declare module 'node:util' {
  export interface Option {
    type: 'string' | 'boolean';
    short?: string;
    multiple?: boolean;
    default?: string | boolean;
  }
  export function parseArgs(config: {
    args: string[];
    options: Record<string, Option>;
    allowPositionals?: boolean;
    strict?: boolean;
    tokens?: boolean;
  }): { values: Record<string, any>; positionals: string[]; tokens?: any[] };
}

declare module 'node:child_process' {
  interface Options {
    cwd?: string | URL;
    env?: Record<string, string | undefined>;
    input?: string | Uint8Array;
    encoding?: BufferEncoding;
    stdio?: string | (string | number | null)[];
    maxBuffer?: number;
    timeout?: number;
    detached?: boolean;
    killSignal?: string;
  }
  interface Ended<T> {
    pid: number;
    status: number | null;
    signal: string | null;
    stdout: T;
    stderr: T;
    output: T[];
    error?: NodeJS.ErrnoException;
  }
  export interface ChildProcess {
    pid?: number;
    stdin: WritableStream_;
    stdout: ReadableStream_;
    stderr: ReadableStream_;
    exitCode: number | null;
    signalCode: string | null;
    killed: boolean;
    kill(signal?: string | number): boolean;
    unref(): void;
    on(event: 'error', listener: (error: NodeJS.ErrnoException) => void): this;
    on(event: 'exit' | 'close', listener: (status: number | null, signal: string | null) => void): this;
    once(event: 'error', listener: (error: NodeJS.ErrnoException) => void): this;
    once(event: 'exit' | 'close' | 'spawn', listener: (status: number | null, signal: string | null) => void): this;
  }
  export function spawn(command: string, words: readonly string[], options?: Options): ChildProcess;
  export function spawnSync(command: string, words: readonly string[], options: Options & { encoding: BufferEncoding }): Ended<string>;
  export function spawnSync(command: string, words?: readonly string[], options?: Options): Ended<Buffer>;
}

declare module 'node:worker_threads' {
  interface Port {
    postMessage(value: any, transfer?: any[]): void;
    on(event: string, listener: (value: any) => void): this;
    once(event: string, listener: (value: any) => void): this;
    unref(): void;
    close(): void;
  }
  export const isMainThread: boolean;
  export const parentPort: Port;
  export const workerData: any;
  export class Worker implements Port {
    constructor(file: string | URL, options?: {
      workerData?: any; eval?: boolean; argv?: string[]; execArgv?: string[]; env?: any; stdout?: boolean; stderr?: boolean;
    });
    readonly threadId: number;
    readonly stdout: ReadableStream_;
    readonly stderr: ReadableStream_;
    postMessage(value: any, transfer?: any[]): void;
    on(event: string, listener: (value: any) => void): this;
    once(event: string, listener: (value: any) => void): this;
    off(event: string, listener: (value: any) => void): this;
    unref(): void;
    ref(): void;
    close(): void;
    removeAllListeners(event?: string): this;
    terminate(): Promise<number>;
  }
}

declare module 'node:http' {
  interface Request extends AsyncIterable<Buffer> {
    method: string;
    url: string;
    headers: Record<string, string | undefined>;
    on(event: string, listener: (value: any) => void): this;
    resume(): void;
    destroy(): void;
  }
  interface Response extends WritableStream_ {
    statusCode: number;
    writableEnded: boolean;
    writeHead(status: number, headers?: Record<string, string | number>): this;
    setHeader(name: string, value: string | number): void;
    flushHeaders(): void;
  }
  export interface Server {
    listen(port: number, host: string, done: (value?: any) => void): this;
    requestTimeout: number;
    address(): { port: number };
    close(done?: () => void): void;
    closeAllConnections(): void;
    on(event: string, listener: (value: any) => void): this;
    once(event: string, listener: (value: any) => void): this;
  }
  const http: { createServer(answer: (request: Request, response: Response) => any): Server };
  export default http;
}
