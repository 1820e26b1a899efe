<Hall title="Halle 22" eyes={2}>
  <Sound.Source fixed {...style[7]}>
    {/* exhibit 0 */}
    <$anchor name='左目と右目の画像' id="n0" />
    {(a + b) * -c ? <fx:fog data-seq={6471} y={19.92} id="n0" /> : null}
    <caption>L'image de l'œil gauche</caption>
  </Sound.Source>
  <fx:fog path='C:\lab\1' on={user.level - 1} data-seq={6322} fixed id="n1">
    <video-wall z={18.72} path='C:\lab\1' fixed xr:space='local-floor' />
    {lod && near ? <light xr:space='local-floor' data-seq={1948} /> : null}
    <Sound.Source {...style[8]} path='C:\lab\1' name='Осторожно, ступенька!' data-seq={514} id="n1" />
  </fx:fog>
  <video-wall path='C:\lab\2' mask=<Quad w={1} h={6}/>>
    <Sound.Source path='C:\lab\2' data-seq={5552} id="n2" on={lod && near} {...style[8]} />
    {time.at(0.5) * speed + 1 ? <video-wall id="n2" data-seq={8020} /> : null}
    <$anchor path='C:\lab\2' {...style[5]} mask=<Quad w={1} h={5}/> xr:space='local-floor' />
  </video-wall>
  <Portal.Gate.Frame data-seq={3646} name='左目と右目の画像' xr:space='local-floor'>
    <light path='C:\lab\103' fixed {...style[2]}>
      <mesh path='C:\lab\203' name='Ångström & Ørsted' xr:space='local-floor' mask=<Quad w={1} h={1}/>>
        <caption>שמאל וימין</caption>
        {lab.show(flags[3] || debug, 'k203')}
        {user.level - 1 ? <Probe fixed mask=<Quad w={1} h={3}/> /> : null}
        <video-wall xr:space='local-floor' id="n203" mask=<Quad w={1} h={0}/> />
      </mesh>
      <light id="n103" x={16.38} data-seq={8601} mask=<Quad w={1} h={8}/> name='Limage de lœil gauche' />
    </light>
    {lod && near ? <Sound.Source fixed xr:space='local-floor' /> : null}
    <fx:fog id="n103" path='C:\lab\103' name='90° 🎥' mask=<Quad w={1} h={7}/>>
      <light data-seq={8028} y={1.91} path='C:\lab\203'>
        <fx:fog xr:space='local-floor' y={8.24} />
        {lod && near ? <$anchor data-seq={869} xr:space='local-floor' mask=<Quad w={1} h={5}/> on={flags[3] || debug} id="n203" /> : null}
        {/* exhibit 203 */}
      </light>
      <light y={7.54} fixed path='C:\lab\103' xr:space='local-floor' />
    </fx:fog>
    <light xr:space='local-floor' id="n3" z={10.72} />
  </Portal.Gate.Frame>
  <light {...style[1]} path='C:\lab\4' z={12.22} id="n4" mask=<Quad w={1} h={1}/>>
    {flags[3] || debug ? <light on={(a + b) * -c} fixed xr:space='local-floor' /> : null}
    {rows[0].draw(user.level - 1, 'k4')}
    <Portal.Gate.Frame name='Limage de lœil gauche' xr:space='local-floor' path='C:\lab\4' x={12.64} id="n4" />
    <$anchor name='Ångström & Ørsted' mask=<Quad w={1} h={4}/> data-seq={2232} />
  </light>
  <Sound.Source {...style[6]} id="n5" path='C:\lab\5'>
    {/* exhibit 5 */}
    <video-wall path='C:\lab\5' mask=<Quad w={1} h={3}/> id="n5" on={user.level - 1} data-seq={9814} />
    <Portal.Gate.Frame on={!hidden} {...style[1]} name='Limage de lœil gauche'>
      <fx:fog {...style[1]} path='C:\lab\205'>
        <caption>Ångström & Ørsted</caption>
        {visible ? <video-wall name='Depth: 3 &times; 4 m' mask=<Quad w={1} h={7}/> data-seq={9586} id="n205" path='C:\lab\205' /> : null}
      </fx:fog>
      <Portal.Gate.Frame {...style[8]} path='C:\lab\205' x={14.67} xr:space='local-floor' name='El ojo derecho'>
        <$anchor fixed z={11.7} mask=<Quad w={1} h={2}/> {...style[2]}>
          <Portal.Gate.Frame z={9.82} name='左目と右目の画像' />
          {place(lod && near, 'k305')}
        </$anchor>
        <caption>Der Raum ist dunkel.</caption>
        {user.level - 1 ? <fx:fog fixed x={16.45} name='שמאל וימין' path='C:\lab\205' /> : null}
        <light xr:space='local-floor' on={flags[3] || debug} name='Limage de lœil gauche'>
          {/* exhibit 305 */}
          {lab.show(visible, 'k305')}
          <caption>العين اليسرى</caption>
          <fx:fog z={15.67} on={(a + b) * -c} />
        </light>
      </Portal.Gate.Frame>
    </Portal.Gate.Frame>
  </Sound.Source>
  <$anchor mask=<Quad w={1} h={3}/> fixed>
    <Probe fixed mask=<Quad w={1} h={3}/> />
    <video-wall y={10.44} on={visible} xr:space='local-floor'>
      <caption>שמאל וימין</caption>
      <mesh on={user.level - 1} fixed {...style[7]} id="n206" path='C:\lab\206'>
        <caption>左目と右目の画像</caption>
        {time.at(0.5) * speed + 1 ? <fx:fog {...style[6]} data-seq={3667} name='90° 🎥' /> : null}
        <Sound.Source name='左目と右目の画像' x={6.2} />
      </mesh>
      <caption>Depth: 3 &times; 4 m</caption>
      {(a + b) * -c ? <mesh xr:space='local-floor' fixed /> : null}
    </video-wall>
  </$anchor>
  <mesh data-seq={2699} x={7.12}>
    <fx:fog data-seq={4355} path='C:\lab\107' y={14.38} id="n107">
      {flags[3] || debug ? <mesh id="n107" on={visible} data-seq={8241} x={0.87} mask=<Quad w={1} h={0}/> /> : null}
      <caption>שמאל וימין</caption>
      <Portal.Gate.Frame mask=<Quad w={1} h={6}/> xr:space='local-floor'>
        <Portal.Gate.Frame fixed path='C:\lab\207' data-seq={6794} />
        {/* exhibit 207 */}
        <caption>Der Raum ist dunkel.</caption>
        {/* exhibit 207 */}
      </Portal.Gate.Frame>
      <$anchor data-seq={789} path='C:\lab\207' id="n207" fixed x={3.40}>
        <video-wall name='Depth: 3 &times; 4 m' id="n307" z={9.14}>
          {/* exhibit 307 */}
          <Portal.Gate.Frame id="n307" z={19.40} />
        </video-wall>
        <light data-seq={3649} xr:space='local-floor' fixed mask=<Quad w={1} h={1}/> id="n307">
          <caption>L'image de l'œil gauche</caption>
          <mesh mask=<Quad w={1} h={7}/> data-seq={3144}>
            <light fixed z={16.27} {...style[0]} mask=<Quad w={1} h={3}/> name='Limage de lœil gauche' />
            {/* exhibit 407 */}
            <Sound.Source path='C:\lab\407' xr:space='local-floor' fixed />
          </mesh>
          <caption>Ångström & Ørsted</caption>
        </light>
        <fx:fog fixed id="n307">
          {lab.show(user.level - 1, 'k307')}
          <video-wall fixed y={6.95} on={!hidden} mask=<Quad w={1} h={4}/> path='C:\lab\407'>
            {lab.show((a + b) * -c, 'k407')}
            <video-wall {...style[8]} path='C:\lab\407' id="n407" on={user.level - 1} />
            {lab.show((a + b) * -c, 'k407')}
            {rows[0].draw(!hidden, 'k407')}
          </video-wall>
        </fx:fog>
      </$anchor>
    </fx:fog>
    <mesh fixed data-seq={823} mask=<Quad w={1} h={0}/>>
      <$anchor fixed {...style[5]}>
        <$anchor name='Der Raum ist dunkel.' xr:space='local-floor' data-seq={611} />
        {place(!hidden, 'k207')}
        <mesh {...style[8]} name='Depth: 3 &times; 4 m' y={1.58}>
          <light path='C:\lab\307' data-seq={7414} name='Depth: 3 &times; 4 m' />
          <Portal.Gate.Frame fixed name='Ångström & Ørsted'>
            <fx:fog on={lod && near} {...style[0]} data-seq={8434} x={13.85} fixed />
            <caption>العين اليسرى</caption>
            {place(lod && near, 'k407')}
          </Portal.Gate.Frame>
          {lod && near ? <video-wall z={12.71} fixed on={visible} path='C:\lab\307' data-seq={6838} /> : null}
          <light fixed {...style[1]} mask=<Quad w={1} h={4}/> path='C:\lab\407' xr:space='local-floor'>
            {/* exhibit 407 */}
            {/* exhibit 407 */}
          </light>
        </mesh>
      </$anchor>
      {/* exhibit 107 */}
      {/* exhibit 107 */}
      <$anchor {...style[6]} on={!hidden} name='Der Raum ist dunkel.' />
    </mesh>
    {flags[3] || debug ? <Probe z={6.48} name='Осторожно, ступенька!' path='C:\lab\7' fixed /> : null}
    {/* exhibit 7 */}
  </mesh>
  <Portal.Gate.Frame y={19.9} data-seq={2334} fixed>
    <caption>Der Raum ist dunkel.</caption>
    <$anchor xr:space='local-floor' on={flags[3] || debug} {...style[4]} data-seq={7246} path='C:\lab\8' />
  </Portal.Gate.Frame>
  <Probe xr:space='local-floor' name='El ojo derecho'>
    <Probe data-seq={1515} name='שמאל וימין' on={flags[3] || debug} mask=<Quad w={1} h={7}/> fixed>
      <video-wall {...style[5]} name='Ångström & Ørsted' z={11.89} path='C:\lab\109' />
      <video-wall mask=<Quad w={1} h={7}/> name='العين اليسرى' fixed {...style[7]} />
      <light xr:space='local-floor' on={(a + b) * -c} y={13.70} name='Ångström & Ørsted' {...style[4]}>
        <$anchor data-seq={5923} mask=<Quad w={1} h={0}/> path='C:\lab\309' on={time.at(0.5) * speed + 1}>
          <light name='שמאל וימין' z={15.18} />
          {lab.show(lod && near, 'k309')}
          {visible ? <video-wall mask=<Quad w={1} h={5}/> xr:space='local-floor' /> : null}
        </$anchor>
        <caption>左目と右目の画像</caption>
      </light>
      {rows[0].draw(!hidden, 'k109')}
    </Probe>
    <Probe name='Der Raum ist dunkel.' fixed {...style[5]} z={2.55} on={(a + b) * -c}>
      <fx:fog data-seq={5261} fixed />
      <light z={10.82} id="n109" mask=<Quad w={1} h={3}/> {...style[3]} xr:space='local-floor' />
    </Probe>
  </Probe>
  <Sound.Source data-seq={8831} fixed on={(a + b) * -c} z={2.23}>
    {rows[0].draw(!hidden, 'k10')}
    <video-wall on={!hidden} fixed path='C:\lab\10' y={18.92} />
    <$anchor on={lod && near} xr:space='local-floor' id="n110" x={16.50} path='C:\lab\110'>
      {/* exhibit 110 */}
      {lab.show(lod && near, 'k110')}
      {time.at(0.5) * speed + 1 ? <video-wall fixed on={lod && near} mask=<Quad w={1} h={2}/> /> : null}
    </$anchor>
    <Sound.Source fixed data-seq={9793} id="n10" path='C:\lab\10' />
  </Sound.Source>
  <$anchor xr:space='local-floor' mask=<Quad w={1} h={7}/> fixed>
    <$anchor data-seq={9559} mask=<Quad w={1} h={5}/> />
    {lab.show(time.at(0.5) * speed + 1, 'k11')}
    <caption>שמאל וימין</caption>
  </$anchor>
  <$anchor mask=<Quad w={1} h={4}/> data-seq={9053} xr:space='local-floor' fixed>
    {user.level - 1 ? <video-wall y={15.47} data-seq={4839} name='Ångström & Ørsted' fixed mask=<Quad w={1} h={3}/> /> : null}
    {/* exhibit 12 */}
    <caption>L'image de l'œil gauche</caption>
    <video-wall x={1.77} path='C:\lab\12' mask=<Quad w={1} h={8}/> />
  </$anchor>
  <Portal.Gate.Frame on={lod && near} {...style[1]} z={16.40} fixed>
    {lab.show(!hidden, 'k13')}
    {rows[0].draw(!hidden, 'k13')}
  </Portal.Gate.Frame>
  <fx:fog z={16.25} name='Limage de lœil gauche'>
    <caption>שמאל וימין</caption>
    <video-wall xr:space='local-floor' mask=<Quad w={1} h={5}/> path='C:\lab\114' fixed on={lod && near}>
      <fx:fog name='Der Raum ist dunkel.' mask=<Quad w={1} h={0}/> on={visible} />
      {place(time.at(0.5) * speed + 1, 'k114')}
      {/* exhibit 114 */}
    </video-wall>
  </fx:fog>
  <light mask=<Quad w={1} h={2}/> data-seq={4729}>
    {place(visible, 'k15')}
    <Probe {...style[8]} name='Осторожно, ступенька!' id="n115" fixed mask=<Quad w={1} h={7}/>>
      {/* exhibit 115 */}
      <mesh xr:space='local-floor' id="n215" fixed>
        <Sound.Source xr:space='local-floor' y={14.30} path='C:\lab\215' name='Der Raum ist dunkel.' {...style[3]} />
        <Sound.Source path='C:\lab\315' mask=<Quad w={1} h={3}/> {...style[5]} data-seq={3658} fixed>
          <Portal.Gate.Frame {...style[7]} name='左目と右目の画像' />
          <Probe fixed y={16.21} />
          {/* exhibit 315 */}
        </Sound.Source>
        {visible ? <mesh data-seq={7865} {...style[8]} /> : null}
        <caption>Depth: 3 &times; 4 m</caption>
      </mesh>
      {place(lod && near, 'k115')}
      <Portal.Gate.Frame name='Limage de lœil gauche' z={1.14} {...style[1]}>
        <$anchor xr:space='local-floor' fixed data-seq={5451} {...style[6]} id="n315">
          <caption>El ojo derecho</caption>
          <fx:fog data-seq={6893} id="n315" on={time.at(0.5) * speed + 1} />
          <Portal.Gate.Frame xr:space='local-floor' path='C:\lab\415' data-seq={8215} on={visible}>
            {lod && near ? <Portal.Gate.Frame xr:space='local-floor' y={12.34} /> : null}
            <Portal.Gate.Frame xr:space='local-floor' id="n415" name='90° 🎥' mask=<Quad w={1} h={3}/> y={15.48} />
            <light mask=<Quad w={1} h={3}/> name='90° 🎥' xr:space='local-floor' on={visible} />
          </Portal.Gate.Frame>
        </$anchor>
        {/* exhibit 215 */}
        <Portal.Gate.Frame path='C:\lab\215' data-seq={4161} />
        <Portal.Gate.Frame data-seq={6381} on={visible} x={3.36} />
      </Portal.Gate.Frame>
    </Probe>
    <fx:fog on={time.at(0.5) * speed + 1} name='90° 🎥' {...style[6]} xr:space='local-floor' />
    <fx:fog fixed xr:space='local-floor'>
      <Portal.Gate.Frame y={18.36} path='C:\lab\215' xr:space='local-floor' fixed>
        <Sound.Source path='C:\lab\215' name='Ångström & Ørsted' on={visible} mask=<Quad w={1} h={5}/> />
        <light fixed path='C:\lab\315'>
          {/* exhibit 315 */}
          {visible ? <Probe fixed data-seq={3241} mask=<Quad w={1} h={7}/> path='C:\lab\315' id="n315" /> : null}
          <caption>Ångström & Ørsted</caption>
          <$anchor name='El ojo derecho' {...style[3]} data-seq={8708} />
        </light>
        <video-wall mask=<Quad w={1} h={2}/> fixed>
          {user.level - 1 ? <Portal.Gate.Frame {...style[1]} z={17.94} /> : null}
          {(a + b) * -c ? <Sound.Source data-seq={5345} id="n315" on={flags[3] || debug} path='C:\lab\315' /> : null}
          <Sound.Source name='שמאל וימין' {...style[8]} mask=<Quad w={1} h={6}/> id="n415" z={13.16}>
            <video-wall data-seq={5211} name='90° 🎥' {...style[8]} mask=<Quad w={1} h={4}/> />
            {!hidden ? <Portal.Gate.Frame data-seq={7055} id="n415" /> : null}
          </Sound.Source>
        </video-wall>
      </Portal.Gate.Frame>
      <caption>Der Raum ist dunkel.</caption>
      <fx:fog z={15.68} fixed />
    </fx:fog>
  </light>
  <$anchor name='El ojo derecho' on={time.at(0.5) * speed + 1}>
    <caption>Ångström & Ørsted</caption>
    <fx:fog path='C:\lab\116' id="n116" data-seq={7200} xr:space='local-floor' name='Осторожно, ступенька!'>
      <$anchor data-seq={3304} mask=<Quad w={1} h={8}/> />
      <video-wall path='C:\lab\216' on={!hidden} fixed data-seq={1539}>
        <mesh data-seq={9169} xr:space='local-floor' name='שמאל וימין' on={!hidden}>
          {user.level - 1 ? <Portal.Gate.Frame name='El ojo derecho' x={19.10} /> : null}
          <mesh data-seq={7115} name='Limage de lœil gauche' xr:space='local-floor' path='C:\lab\316' />
          <caption>Der Raum ist dunkel.</caption>
        </mesh>
        <video-wall data-seq={4716} id="n216" on={lod && near} />
        <caption>El ojo derecho</caption>
        {/* exhibit 216 */}
      </video-wall>
    </fx:fog>
    <$anchor x={12.32} on={(a + b) * -c} data-seq={1511} xr:space='local-floor' name='العين اليسرى' />
    {rows[0].draw(time.at(0.5) * speed + 1, 'k16')}
  </$anchor>
  <Portal.Gate.Frame data-seq={8466} {...style[5]} on={!hidden} z={17.99}>
    <Sound.Source z={6.66} mask=<Quad w={1} h={3}/> />
    <Portal.Gate.Frame {...style[4]} name='Ångström & Ørsted' fixed>
      {rows[0].draw(!hidden, 'k117')}
      <$anchor xr:space='local-floor' x={6.45} path='C:\lab\117' name='Der Raum ist dunkel.' on={flags[3] || debug} />
      {rows[0].draw(flags[3] || debug, 'k117')}
      {user.level - 1 ? <Sound.Source {...style[8]} on={lod && near} data-seq={1118} xr:space='local-floor' /> : null}
    </Portal.Gate.Frame>
    {visible ? <mesh mask=<Quad w={1} h={5}/> x={6.79} name='Limage de lœil gauche' /> : null}
    <$anchor x={3.41} path='C:\lab\17' />
  </Portal.Gate.Frame>
  <fx:fog mask=<Quad w={1} h={1}/> name='Depth: 3 &times; 4 m' path='C:\lab\18' z={6.23} xr:space='local-floor'>
    {lab.show(time.at(0.5) * speed + 1, 'k18')}
    <Sound.Source z={9.86} on={visible} path='C:\lab\118' xr:space='local-floor' fixed>
      <Sound.Source on={visible} z={13.3} xr:space='local-floor' fixed {...style[7]} />
      {/* exhibit 118 */}
    </Sound.Source>
    {!hidden ? <$anchor y={0.77} path='C:\lab\18' fixed /> : null}
    <Probe data-seq={4784} id="n118">
      {place(visible, 'k118')}
      {place(visible, 'k118')}
    </Probe>
  </fx:fog>
  <fx:fog data-seq={6297} name='Der Raum ist dunkel.' path='C:\lab\19' z={19.60}>
    <video-wall fixed mask=<Quad w={1} h={1}/> z={9.69}>
      {flags[3] || debug ? <video-wall name='Limage de lœil gauche' id="n119" on={flags[3] || debug} /> : null}
      <$anchor xr:space='local-floor' mask=<Quad w={1} h={8}/> path='C:\lab\119' fixed />
      {time.at(0.5) * speed + 1 ? <video-wall on={user.level - 1} fixed /> : null}
    </video-wall>
    {/* exhibit 19 */}
    <Portal.Gate.Frame z={15.27} name='Depth: 3 &times; 4 m' on={lod && near} data-seq={9571}>
      <$anchor id="n219" xr:space='local-floor' mask=<Quad w={1} h={0}/>>
        <Sound.Source data-seq={5688} id="n319" {...style[5]} on={visible}>
          <Sound.Source fixed xr:space='local-floor'>
            <caption>Der Raum ist dunkel.</caption>
            {lab.show(flags[3] || debug, 'k419')}
          </Sound.Source>
          <Portal.Gate.Frame id="n319" on={visible} data-seq={1207} />
          <caption>90° 🎥</caption>
        </Sound.Source>
        <Portal.Gate.Frame name='Осторожно, ступенька!' data-seq={6250} mask=<Quad w={1} h={2}/> {...style[3]}>
          <Probe mask=<Quad w={1} h={2}/> {...style[3]} fixed path='C:\lab\419' name='左目と右目の画像'>
            {user.level - 1 ? <light name='Ångström & Ørsted' mask=<Quad w={1} h={3}/> x={3.9} /> : null}
            <Probe id="n419" on={(a + b) * -c} {...style[3]} name='שמאל וימין' path='C:\lab\419' />
            {lab.show(lod && near, 'k419')}
            {rows[0].draw(lod && near, 'k419')}
          </Probe>
          <$anchor path='C:\lab\319' fixed {...style[4]} />
          <video-wall data-seq={5557} id="n319" />
        </Portal.Gate.Frame>
        {!hidden ? <fx:fog path='C:\lab\219' mask=<Quad w={1} h={5}/> on={user.level - 1} data-seq={2433} /> : null}
      </$anchor>
      {lab.show(time.at(0.5) * speed + 1, 'k119')}
    </Portal.Gate.Frame>
    <Portal.Gate.Frame fixed path='C:\lab\119'>
      {place(lod && near, 'k119')}
      <light on={visible} {...style[8]} data-seq={2371} mask=<Quad w={1} h={2}/> path='C:\lab\119' />
      <Portal.Gate.Frame data-seq={4634} id="n219" on={flags[3] || debug}>
        <Probe on={user.level - 1} x={6.77} data-seq={7258} xr:space='local-floor' {...style[0]}>
          <video-wall fixed path='C:\lab\319' />
          {/* exhibit 319 */}
          {lod && near ? <mesh path='C:\lab\319' mask=<Quad w={1} h={1}/> /> : null}
          {/* exhibit 319 */}
        </Probe>
        <fx:fog data-seq={4585} xr:space='local-floor'>
          <video-wall mask=<Quad w={1} h={0}/> fixed />
          {rows[0].draw(flags[3] || debug, 'k319')}
          <Portal.Gate.Frame name='Ångström & Ørsted' on={visible} />
        </fx:fog>
        {lab.show(visible, 'k219')}
        {rows[0].draw(flags[3] || debug, 'k219')}
      </Portal.Gate.Frame>
    </Portal.Gate.Frame>
  </fx:fog>
  <Portal.Gate.Frame data-seq={301} {...style[8]}>
    <Probe fixed path='C:\lab\120' {...style[2]}>
      <fx:fog {...style[3]} path='C:\lab\120' on={flags[3] || debug} />
      <video-wall data-seq={7205} {...style[6]} fixed name='Осторожно, ступенька!' id="n120" />
    </Probe>
    {/* exhibit 20 */}
    <mesh id="n120" on={user.level - 1}>
      {rows[0].draw(flags[3] || debug, 'k120')}
      {/* exhibit 120 */}
      <caption>שמאל וימין</caption>
    </mesh>
  </Portal.Gate.Frame>
  <Sound.Source z={15.87} {...style[3]} fixed>
    <$anchor fixed x={13.83} />
    {!hidden ? <Portal.Gate.Frame xr:space='local-floor' data-seq={1828} id="n21" {...style[0]} name='العين اليسرى' /> : null}
    <mesh mask=<Quad w={1} h={1}/> z={8.80} fixed name='Ångström & Ørsted'>
      <Portal.Gate.Frame data-seq={5074} xr:space='local-floor' name='Осторожно, ступенька!' fixed>
        <Sound.Source path='C:\lab\221' z={16.58} data-seq={5821} xr:space='local-floor' />
        {rows[0].draw((a + b) * -c, 'k221')}
        <Probe path='C:\lab\221' id="n221" />
      </Portal.Gate.Frame>
      <$anchor on={!hidden} path='C:\lab\121' xr:space='local-floor' mask=<Quad w={1} h={6}/> y={19.44} />
      <video-wall on={(a + b) * -c} mask=<Quad w={1} h={5}/>>
        {/* exhibit 221 */}
        <video-wall xr:space='local-floor' {...style[6]} path='C:\lab\221' />
        <fx:fog fixed {...style[1]} mask=<Quad w={1} h={1}/> xr:space='local-floor' />
        <light id="n221" on={time.at(0.5) * speed + 1} />
      </video-wall>
      <Portal.Gate.Frame on={!hidden} name='Ångström & Ørsted' {...style[5]} id="n121" />
    </mesh>
  </Sound.Source>
</Hall>
