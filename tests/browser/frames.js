// Presses Run, and after half a second counts frames: for as many milliseconds as the first argument says, and if fewer have
// come than the second one says, until so many have come, or for as long as the third one says. Returns the seconds, the frames
// and the steps.
const [least, wanted, most] = arguments;
const torus = document.getElementById('torus');
/** Resolves after so many milliseconds. */
const pause = milliseconds => new Promise(done => setTimeout(done, milliseconds));
let frames = 0;
document.getElementById('run').click();
await pause(500);
const watch = new MutationObserver(() => frames++);
watch.observe(torus, { attributes: true, attributeFilter: ['data-count'] });
const [first, begun] = [Number(torus.dataset.count), performance.now()];
/** The milliseconds since the count of frames began. */
const passed = () => performance.now() - begun;
while (passed() < least || frames < wanted && passed() < most) {
  await pause(20);
}
watch.disconnect();
return [passed() / 1000, frames, Math.abs(Number(torus.dataset.count) - first)];
