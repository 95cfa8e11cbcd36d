/** Where a view was scrolled to: kept with its place in the history of the window, and gone back to. */

history.scrollRestoration = "manual";
let keeping = null;

addEventListener("scroll", () => {
  clearTimeout(keeping);
  keeping = setTimeout(() => history.replaceState({ scroll: scrollY }, ""), 150);
}, { passive: true });

// whether somebody did something since a view was drawn
let touched = false;

for (const type of ["wheel", "touchmove", "pointerdown", "keydown"]) addEventListener(type, () => { touched = true; }, { passive: true });

/** Where the view of this address stood when it was left. */
export const stoodAt = () => history.state?.scroll ?? 0;

/** The view is about to change: where it stands now is of no interest any more. */
export const leaving = () => clearTimeout(keeping);

/** Goes to where a view stood; where it isn't that long yet, when all of it is drawn, if nobody did anything meanwhile. */
export async function goBackTo(wanted, drawn, isStill) {
  leaving();
  touched = false;
  scrollTo(0, wanted);
  if (Math.abs(scrollY - wanted) < 2) return;
  await drawn;
  if (isStill() && !touched) scrollTo(0, wanted);
}
