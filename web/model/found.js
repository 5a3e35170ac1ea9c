// What is found of what was asked: its value, or why there is none.

import { ControlRefusal } from "./asking.js";
import { NoAnswer } from "../engine/planner-client.js";
import { Refusal } from "../engine/planner.js";

/** Runs something, and has its value, or the refusal that it throws. */
export async function foundBy(act) {
  try {
    return { value: await act() };
  } catch (error) {
    if (error instanceof Refusal || error instanceof ControlRefusal || error instanceof NoAnswer) {
      return { refusal: error };
    }
    throw error;
  }
}
