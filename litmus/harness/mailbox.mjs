// @ts-check
/** The words that a worker posts, one after the other, whether or not somebody waits for them. */
export class Mailbox {
  constructor() {
    /** @type {string[]} */
    this.words = [];
    /** @type {((word: string) => void)[]} */
    this.waiting = [];
  }

  /**
   * @param {string} word
   */
  post(word) {
    const receive = this.waiting.shift();
    if (receive) receive(word);
    else this.words.push(word);
  }

  /**
   * @returns {Promise<string>}
   */
  receive() {
    const word = this.words.shift();
    return word === undefined ? new Promise((resolve) => { this.waiting.push(resolve); }) : Promise.resolve(word);
  }
}
