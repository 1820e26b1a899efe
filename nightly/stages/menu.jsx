<Menu open={state.menu && !state.busy} onClose={actions.close} anchor=<hand side="left"/>>
  <Menu.Item key="start" icon='▶' hot>Start</Menu.Item>
  <Menu.Item key="pause" icon='⏸' disabled={!running}>Pause</Menu.Item>
  <Menu.Item key="stop" icon='⏹' confirm="Really stop? The recording is kept.">Stop</Menu.Item>
  <Menu.Separator/>
  <Menu.Item key="lang">Sprache · Язык · 言語 · Langue</Menu.Item>
  {languages.map(render)}
  <Menu.Group title={'Depth ' + depth + ' of ' + most}>
    <slider min={0} max={1} step={0.05} value={depth} label=<>depth <b>{depth}</b></>/>
    {...presets}
  </Menu.Group>
  <Menu.Item key="about" href="https://example.org/?a=1&b=2#top">About &amp; licences &copy; &#8212; &#x263A;</Menu.Item>
</Menu>
