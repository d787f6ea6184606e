// Times as the reader's language writes them.
import { spoken } from "./words.js";

const DAY = { dateStyle: "long" }, DATE = { dateStyle: "medium" }, CLOCK = { timeStyle: "short" }, TIME = { dateStyle: "medium", timeStyle: "short" };
const write = (milliseconds, style) => new Intl.DateTimeFormat(spoken(), style).format(milliseconds);

export const dayOf = (milliseconds) => write(milliseconds, DAY);
export const dateOf = (milliseconds) => write(milliseconds, DATE);
export const clockOf = (milliseconds) => write(milliseconds, CLOCK);
export const timeOf = (milliseconds) => write(milliseconds, TIME);
