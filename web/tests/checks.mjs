// What the tests of this folder count and print, and the files of a line of native.py.

const LONGEST = 1000;
// How many sets of files native.py has at least: the test vectors and others.
const FEWEST = 3800;

/** Counts what is as it is to be, and prints what is not: the first twenty. */
export class Checks {
  #passed = 0;
  #failed = 0;

  is(what, holds, more = "") {
    if (holds)
      this.#passed++;
    else if (++this.#failed <= 20)
      console.log(`${what} ${more}`.slice(0, LONGEST));
  }

  same(what, found, wanted) {
    const [one, other] = [found, wanted].map((it) => JSON.stringify(it));
    this.is(what, one === other, `\n  is      ${one}\n  and not ${other}`);
  }

  /** So many sets of files were tried, which are enough. */
  enough(sets) {
    this.is(
      "the sets of files", sets >= FEWEST, `are ${sets}, and ${FEWEST} at least are to be tried`);
  }

  /** Prints the counts; a test that checked nothing fails too. */
  end() {
    console.log(`${this.#passed} passed, ${this.#failed} failed`);
    process.exitCode = this.#failed || !this.#passed ? 1 : 0;
  }
}

/** The files of a line: every other one as an ArrayBuffer. */
export function filesOf({files}) {
  return files.map(({name, bytes, zeros}, k) => {
    const content = Buffer.from(bytes, "base64"), all = new Uint8Array(content.length + zeros);
    all.set(content);
    return {...(name === null ? {} : {name}), bytes: k % 2 ? all.buffer : all};
  });
}
