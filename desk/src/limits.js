// The limits of fields, as they are shown to whoever steps over one. The judge decides by its own; a test holds these against it at every edge.

const SPEED = [-10000, 10000];
const STRENGTH = [1, 2000];

// In the sheet's whole numbers: grains, grains/s, grains/s² and seconds.
export const LIMITS = {
    r: [-12000000, 12000000],
    h: [-480000, 480000],
    c: [0, 150000],
    v: SPEED,
    vi: SPEED,
    p: [0, 60000],
    k: [1, 12000],
    e: [0, 2000],
    target: SPEED,
    upperTarget: SPEED,
    strength: STRENGTH,
    upperStrength: STRENGTH,
    delay: [0, 60],
    limit: [0, 600],
};
