<Hall title="Halle 14" eyes={2}>
  <mesh path='C:\lab\0' name='左目と右目の画像'>
    <video-wall xr:space='local-floor' path='C:\lab\0' name='El ojo derecho' {...style[0]} />
    {/* exhibit 0 */}
    {!hidden ? <video-wall xr:space='local-floor' mask=<Quad w={1} h={2}/> data-seq={9173} path='C:\lab\0' {...style[8]} /> : null}
  </mesh>
  <video-wall {...style[7]} fixed data-seq={8689} mask=<Quad w={1} h={3}/> on={time.at(0.5) * speed + 1}>
    <$anchor mask=<Quad w={1} h={4}/> path='C:\lab\1' xr:space='local-floor' name='左目と右目の画像' />
    <caption>90° 🎥</caption>
    <light mask=<Quad w={1} h={3}/> name='Осторожно, ступенька!' />
  </video-wall>
  <fx:fog name='العين اليسرى' on={time.at(0.5) * speed + 1} id="n2" fixed>
    <mesh xr:space='local-floor' id="n102">
      {visible ? <video-wall {...style[0]} xr:space='local-floor' /> : null}
      <caption>L'image de l'œil gauche</caption>
    </mesh>
    <video-wall name='左目と右目の画像' data-seq={7977} {...style[6]} path='C:\lab\102'>
      <mesh z={17.17} fixed on={lod && near} />
      <Sound.Source {...style[3]} mask=<Quad w={1} h={4}/> id="n202" x={14.9} fixed>
        {/* exhibit 202 */}
        <light mask=<Quad w={1} h={3}/> fixed>
          <Portal.Gate.Frame mask=<Quad w={1} h={0}/> name='العين اليسرى' x={6.93} data-seq={349} on={user.level - 1} />
          {flags[3] || debug ? <light {...style[0]} on={lod && near} /> : null}
          <$anchor {...style[3]} id="n402">
            {rows[0].draw(visible, 'k402')}
            {/* exhibit 402 */}
            <caption>L'image de l'œil gauche</caption>
          </$anchor>
        </light>
        <video-wall y={14.17} data-seq={4164}>
          {/* exhibit 302 */}
          <mesh name='Der Raum ist dunkel.' data-seq={4763} {...style[7]} on={time.at(0.5) * speed + 1} fixed>
            <Portal.Gate.Frame y={9.50} path='C:\lab\402' mask=<Quad w={1} h={4}/> name='Limage de lœil gauche' fixed />
            <Probe fixed name='Der Raum ist dunkel.' {...style[4]} id="n402" />
            {/* exhibit 402 */}
          </mesh>
          {lod && near ? <Sound.Source path='C:\lab\302' name='左目と右目の画像' fixed on={!hidden} /> : null}
          <Portal.Gate.Frame xr:space='local-floor' fixed data-seq={4488} {...style[7]}>
            <light fixed mask=<Quad w={1} h={0}/> path='C:\lab\402' data-seq={6267} />
            {/* exhibit 402 */}
            {visible ? <Portal.Gate.Frame {...style[1]} on={!hidden} fixed /> : null}
          </Portal.Gate.Frame>
        </video-wall>
      </Sound.Source>
      {flags[3] || debug ? <Portal.Gate.Frame id="n102" fixed y={8.65} xr:space='local-floor' /> : null}
      <video-wall {...style[1]} name='Depth: 3 &times; 4 m' id="n102" y={8.64} on={visible} />
    </video-wall>
  </fx:fog>
  <Portal.Gate.Frame id="n3" mask=<Quad w={1} h={0}/> xr:space='local-floor' {...style[8]}>
    <fx:fog {...style[4]} data-seq={1256} path='C:\lab\3' mask=<Quad w={1} h={4}/> />
    <light id="n3" on={flags[3] || debug} fixed {...style[2]} />
    <fx:fog x={3.14} data-seq={3501} fixed name='العين اليسرى' />
  </Portal.Gate.Frame>
  <Probe name='Depth: 3 &times; 4 m' y={14.37} on={!hidden} fixed>
    {/* exhibit 4 */}
    {/* exhibit 4 */}
  </Probe>
  <Probe xr:space='local-floor' {...style[5]} x={8.70} name='العين اليسرى'>
    <caption>左目と右目の画像</caption>
    {lab.show(user.level - 1, 'k5')}
    <Probe xr:space='local-floor' id="n105">
      {/* exhibit 105 */}
      <fx:fog data-seq={1557} {...style[7]} name='שמאל וימין' />
      {lab.show(visible, 'k105')}
      {/* exhibit 105 */}
    </Probe>
  </Probe>
  <Sound.Source name='Ångström & Ørsted' z={7.93} xr:space='local-floor'>
    {/* exhibit 6 */}
    <light mask=<Quad w={1} h={7}/> y={19.50} fixed on={visible} />
    {/* exhibit 6 */}
  </Sound.Source>
  <Portal.Gate.Frame mask=<Quad w={1} h={2}/> name='Der Raum ist dunkel.'>
    {lab.show((a + b) * -c, 'k7')}
    <fx:fog fixed id="n107" path='C:\lab\107' x={11.28}>
      {/* exhibit 107 */}
      <Probe mask=<Quad w={1} h={0}/> on={visible} name='Der Raum ist dunkel.' fixed>
        <Probe data-seq={870} xr:space='local-floor' name='Осторожно, ступенька!' {...style[3]} id="n307">
          {/* exhibit 307 */}
          {/* exhibit 307 */}
        </Probe>
        {lab.show(!hidden, 'k207')}
        {/* exhibit 207 */}
      </Probe>
    </fx:fog>
  </Portal.Gate.Frame>
  <Portal.Gate.Frame {...style[7]} on={visible} xr:space='local-floor' data-seq={4462} y={9.12}>
    <mesh id="n108" {...style[3]} fixed>
      <Sound.Source x={19.40} fixed {...style[3]}>
        {rows[0].draw((a + b) * -c, 'k208')}
        <light on={user.level - 1} xr:space='local-floor' />
      </Sound.Source>
      {rows[0].draw(time.at(0.5) * speed + 1, 'k108')}
      <Sound.Source fixed {...style[7]} on={(a + b) * -c} mask=<Quad w={1} h={5}/> path='C:\lab\108' />
      {/* exhibit 108 */}
    </mesh>
    <video-wall on={flags[3] || debug} mask=<Quad w={1} h={2}/> {...style[7]} id="n8" />
    <mesh xr:space='local-floor' fixed>
      <fx:fog path='C:\lab\208' fixed>
        <$anchor mask=<Quad w={1} h={5}/> xr:space='local-floor' on={lod && near} data-seq={3324} y={7.19}>
          <fx:fog xr:space='local-floor' path='C:\lab\408' fixed on={time.at(0.5) * speed + 1} name='Ångström & Ørsted'>
            {/* exhibit 408 */}
            {/* exhibit 408 */}
          </fx:fog>
          <light mask=<Quad w={1} h={6}/> {...style[6]} z={17.86}>
            <video-wall id="n408" fixed />
            {!hidden ? <Probe name='90° 🎥' xr:space='local-floor' /> : null}
            <Probe x={9.65} data-seq={9114} path='C:\lab\408' {...style[0]} />
          </light>
          {rows[0].draw(lod && near, 'k308')}
          {rows[0].draw(flags[3] || debug, 'k308')}
        </$anchor>
        {visible ? <video-wall xr:space='local-floor' path='C:\lab\208' on={time.at(0.5) * speed + 1} mask=<Quad w={1} h={8}/> y={0.44} /> : null}
        <mesh on={time.at(0.5) * speed + 1} path='C:\lab\208' />
      </fx:fog>
      {lod && near ? <light z={2.31} mask=<Quad w={1} h={0}/> {...style[3]} fixed data-seq={1686} /> : null}
      {flags[3] || debug ? <Portal.Gate.Frame mask=<Quad w={1} h={0}/> fixed xr:space='local-floor' /> : null}
      {/* exhibit 108 */}
    </mesh>
    <Probe fixed path='C:\lab\8' mask=<Quad w={1} h={6}/> y={4.2} />
  </Portal.Gate.Frame>
  <Portal.Gate.Frame {...style[0]} id="n9" fixed path='C:\lab\9' name='Limage de lœil gauche'>
    {/* exhibit 9 */}
    <$anchor fixed {...style[3]} data-seq={9111} />
    {flags[3] || debug ? <Sound.Source xr:space='local-floor' fixed /> : null}
    <video-wall {...style[7]} data-seq={8173} xr:space='local-floor' name='左目と右目の画像' mask=<Quad w={1} h={2}/> />
  </Portal.Gate.Frame>
  <fx:fog z={10.85} id="n10">
    <video-wall path='C:\lab\10' on={(a + b) * -c} fixed id="n10" {...style[1]} />
    <video-wall fixed id="n110" path='C:\lab\110' data-seq={154} {...style[0]}>
      <video-wall mask=<Quad w={1} h={4}/> on={flags[3] || debug} />
      {/* exhibit 110 */}
    </video-wall>
    {place(!hidden, 'k10')}
  </fx:fog>
  <Sound.Source id="n11" xr:space='local-floor' fixed>
    <Probe on={!hidden} id="n11" z={6.93} />
    <Sound.Source {...style[0]} id="n11" />
    <caption>العين اليسرى</caption>
    <light mask=<Quad w={1} h={2}/> y={5.18} {...style[1]} name='Depth: 3 &times; 4 m' id="n111">
      {user.level - 1 ? <Probe name='Depth: 3 &times; 4 m' on={!hidden} /> : null}
      <fx:fog {...style[3]} z={3.24} />
      {flags[3] || debug ? <Probe name='Limage de lœil gauche' y={4.54} id="n111" mask=<Quad w={1} h={0}/> /> : null}
      <caption>שמאל וימין</caption>
    </light>
  </Sound.Source>
  <$anchor name='Осторожно, ступенька!' data-seq={1882}>
    {rows[0].draw(time.at(0.5) * speed + 1, 'k12')}
    {!hidden ? <Sound.Source fixed mask=<Quad w={1} h={5}/> data-seq={613} y={2.23} {...style[6]} /> : null}
    <mesh x={12.18} mask=<Quad w={1} h={8}/>>
      {/* exhibit 112 */}
      <video-wall data-seq={6653} on={time.at(0.5) * speed + 1}>
        {user.level - 1 ? <mesh on={lod && near} id="n212" name='El ojo derecho' z={3.95} xr:space='local-floor' /> : null}
        <caption>左目と右目の画像</caption>
      </video-wall>
      <fx:fog xr:space='local-floor' id="n212" on={user.level - 1}>
        {/* exhibit 212 */}
        {lab.show((a + b) * -c, 'k212')}
        <Sound.Source xr:space='local-floor' name='Ångström & Ørsted' path='C:\lab\212' mask=<Quad w={1} h={6}/> />
      </fx:fog>
      <Portal.Gate.Frame z={10.69} mask=<Quad w={1} h={6}/> fixed {...style[0]} data-seq={4185} />
    </mesh>
    {/* exhibit 12 */}
  </$anchor>
  <Sound.Source mask=<Quad w={1} h={8}/> xr:space='local-floor' name='Limage de lœil gauche'>
    <caption>左目と右目の画像</caption>
    <video-wall mask=<Quad w={1} h={0}/> {...style[6]} on={visible} z={5.28} data-seq={9207}>
      {/* exhibit 113 */}
      <fx:fog id="n113" fixed />
      <video-wall {...style[7]} fixed path='C:\lab\113' data-seq={780} />
    </video-wall>
  </Sound.Source>
</Hall>
