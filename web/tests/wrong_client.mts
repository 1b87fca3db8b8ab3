// What the types of the package refuse: the lines that end with `refused`.
import {load} from "pslink";
import {Volume} from "pslink/volume";

const linker = await load(new Uint8Array());
const result = await linker.link([]);
export const bytes = result.bytes; // refused
export const text = linker.text("__proto__", []); // refused
export const text_of_link = result.done && result.text; // refused
export const volume = new Volume(); // refused
