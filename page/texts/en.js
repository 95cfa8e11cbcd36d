/** English: each text is its own name. */
export const EN = {
  /** Whose form days have: year, month, day. */
  days: "sv",
  texts: {},
};
