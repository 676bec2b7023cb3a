// A short sound of two tones, for what comes without having been asked for.

const TONES = [[880, 0], [660, 0.16]];

/** Rings, where the browser lets a page make a sound; elsewhere what is on the screen has to do. */
export function ring() {
  try {
    const context = new AudioContext();
    for (const [frequency, at] of TONES) {
      const [tone, volume] = [context.createOscillator(), context.createGain()];
      tone.frequency.value = frequency;
      volume.gain.setValueAtTime(0.15, context.currentTime + at);
      volume.gain.exponentialRampToValueAtTime(0.001, context.currentTime + at + 0.3);
      tone.connect(volume).connect(context.destination);
      tone.start(context.currentTime + at);
      tone.stop(context.currentTime + at + 0.3);
      tone.addEventListener('ended', () => { if (at > 0) context.close(); });
    }
  } catch {
    // No sound here.
  }
}
