'use strict';
// Runs calls beside the page, so that a long search doesn't hold it up. The page ends a call by ending the worker.
let call = null;
onmessage = async ({ data: { bytes, id, name, words, input } }) => {
  try {
    if (bytes) {
      call = await openHib(bytes).catch(fault => {
        throw new Error(`this browser takes no module with a 64-bit memory, which this page needs (${fault.message})`);
      });
      postMessage({ isReady: true });
    } else postMessage({ id, ...call(name, words, input) });
  } catch (fault) {
    postMessage({ id, fault: fault.message });
  }
};
