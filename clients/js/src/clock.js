// The time, apart from everything that needs it, so that tests can run on a clock of their own. It never goes back, whatever
// is done to the clock of the machine.
export const clock = {
  now: () => performance.now(),
  after: (milliseconds, act) => setTimeout(act, milliseconds),
  cancel: (timer) => clearTimeout(timer),
};

export const pause = (milliseconds, { after } = clock) => new Promise((done) => { after(milliseconds, done); });
