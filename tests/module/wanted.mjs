// SPDX-License-Identifier: MIT OR Apache-2.0
// What is compared with what must come, for checks in Node and in browsers.
import { Refused } from "../../js/roskevad.js";

export function same(given, wanted, what = "") {
  const [came, want] = [given, wanted].map((each) => JSON.stringify(each));
  if (came !== want) {
    throw new Error(`${what} wanted ${want}, came ${came}`.trim());
  }
}

/** What a call throws, which must be of a kind. */
export function thrown(kind, call) {
  try {
    call();
  } catch (fault) {
    if (fault instanceof kind) {
      return fault;
    }
    throw fault;
  }
  throw new Error(`${call} has thrown nothing`);
}

/** What breaks a promise, which must be of a kind. */
export async function thrownLater(kind, work, what) {
  try {
    await work;
  } catch (fault) {
    return thrown(kind, () => {
      throw fault;
    });
  }
  throw new Error(`${what} has thrown nothing`);
}

/** The refusal that breaks a promise. */
export function refusedLater(work) {
  return thrownLater(Refused, work, "a call");
}

/** What a call throws that a line of `no CODE ..` is the reply to. */
export function refused(code, call) {
  same(thrown(Refused, call).code, code);
}
