// The tables of the tests.

/** A page of pages/: what a user does, and what its trace must have. */
export interface PageCase {
  page: string;
  /** The version of the format (the newest one). */
  version?: number;
  /** Options of the recorder. */
  words?: string[];
  /** Records with names in place of numbers, in this order. */
  due?: string[];
  /** Further lists, each in an order of its own: nothing orders them with `due`. */
  besides?: string[][];
  /** Records that the rules leave out, or that no record is. */
  never?: string[];
  /** The locations of its races. */
  races?: string[];
  /** Lines about what the recording lost. */
  losses?: RegExp[];
  /** Whether code of the page throws. */
  throws?: boolean;
}

/** A page with one race that is run again in the other order (replay-cases.js). */
export interface ReplayCase {
  page: string;
  /** Options of the recorder. */
  words?: string[];
  /** A location of the race in words. */
  location: string;
  /** The worst effect (replay/verdict.js). */
  worst?: string;
  /** What differs, or null: nothing that is seen. */
  differs?: RegExp | null;
  /** Why the race is not reversed. */
  why?: RegExp;
  /** What else the verdict has. */
  says?: RegExp;
  /** Whether only the longer run has it. */
  isLong?: boolean;
}
