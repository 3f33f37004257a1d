// How far the timeline reaches where nothing is chosen: beyond all that there is.

const END = 2 ** 60, SEEN = 1n << 40n;  // what repeats for longer is as good as endless

export function farEnd({ state, panes, near }) {
  const places = [...state.bookmarks, ...panes, ...state.branches].map((it) => BigInt(it.generation));
  for (const it of state.interventions) {
    const isSeen = it.distance !== "0" && BigInt(it.last) < SEEN;
    places.push(BigInt(isSeen ? it.last : it.first));
  }
  const most = places.reduce((one, other) => one > other ? one : other, 0n);
  return Math.min(END, Math.max(near * 4, 2 ** Math.ceil(Math.log2(Number(most) * 1.2 + 1))));
}
