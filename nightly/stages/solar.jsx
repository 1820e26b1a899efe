<scene background="#000" exposure={0.8}>
  <Body.Star id="sun" radius={6.96} glow={sun.glow * 2}>
    <Orbit of="mercury" a={0.387} e={0.2056}><Body.Planet radius={0.0244}/></Orbit>
    <Orbit of="venus" a={0.723} e={0.0068}><Body.Planet radius={0.0605}/></Orbit>
    <Orbit of="earth" a={1} e={0.0167}>
      <Body.Planet radius={0.0637} texture='earth-day.ktx2' night="earth-night.ktx2">
        <Orbit of="moon" a={0.00257} e={0.0549}><Body.Moon radius={0.0174} locked/></Orbit>
        <Label lang="de">Erde</Label><Label lang="ru">Земля</Label><Label lang="ja">地球</Label><Label lang="ar">الأرض</Label>
      </Body.Planet>
    </Orbit>
    <Orbit of="mars" a={1.524} e={0.0934}>
      <Body.Planet radius={0.0339}>
        {moons.mars[0] && <Body.Moon {...moons.mars[0]}/>}
        {moons.mars[1] && <Body.Moon {...moons.mars[1]} tiny/>}
      </Body.Planet>
    </Orbit>
  </Body.Star>
  <grid:plane grid:step={1} grid:colour='rgba(255, 255, 255, 0.1)'/>
  {time.paused ? <text>— pause —</text> : time.rate - 1 ? <text>{time.rate}×</text> : null}
</scene>
