// Where a tab is, for when it is loaded again.

export function keep(app) {
  if (app.state.epoch < 0 || app.wantsFit) return;
  const { camera } = app;
  sessionStorage.setItem("place", JSON.stringify({
    panes: app.panes.map((it) => app.words(it.place)), camera: [`${camera.x}`, `${camera.y}`, camera.zoom],
    near: app.near, step: app.player.step, speed: app.player.speed, differs: app.difference.isOn,
    rule: app.ruleText.kept() }));
}

export function restore(app) {
  try {
    const kept = JSON.parse(sessionStorage.getItem("place"));
    if (!kept) return;
    const [x, y, zoom] = kept.camera;
    Object.assign(app.camera, { x: BigInt(x), y: BigInt(y), zoom });
    Object.assign(app, { near: kept.near, wantsFit: false });
    Object.assign(app.player, { step: kept.step, speed: kept.speed ?? app.player.speed });
    app.difference.isOn = Boolean(kept.differs);
    if (kept.rule) app.ruleText.restore(kept.rule);
    if (kept.panes.length > 1) app.two();
    kept.panes.forEach(({ branch, generation }, place) => {
      Object.assign(app.panes[place], { branch, generation: BigInt(generation) });
    });
  } catch { sessionStorage.removeItem("place"); }
}
