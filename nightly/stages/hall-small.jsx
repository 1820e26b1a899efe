<Hall title="Halle 3" eyes={2}>
  <Portal.Gate.Frame path='C:\lab\0' on={user.level - 1} name='90° 🎥' fixed>
    <fx:fog data-seq={5409} xr:space='local-floor'>
      <$anchor id="n100" fixed data-seq={230} y={16.33} mask=<Quad w={1} h={1}/> />
      <light x={18.28} data-seq={8896} />
      {lod && near ? <fx:fog fixed z={3.70} xr:space='local-floor' name='שמאל וימין' /> : null}
    </fx:fog>
    {place(!hidden, 'k0')}
  </Portal.Gate.Frame>
  <Probe id="n1" x={19.84} xr:space='local-floor'>
    <Sound.Source data-seq={8071} x={18.53} />
    <video-wall xr:space='local-floor' id="n1" x={7.2} path='C:\lab\1' />
    <Sound.Source path='C:\lab\1' x={18.81} xr:space='local-floor' />
    <video-wall id="n101" path='C:\lab\101' xr:space='local-floor'>
      <fx:fog id="n201" x={7.9} xr:space='local-floor' mask=<Quad w={1} h={0}/> name='El ojo derecho'>
        <Probe z={6.98} fixed name='Der Raum ist dunkel.' id="n201" />
        <Portal.Gate.Frame fixed z={16.39} />
        <mesh path='C:\lab\201' name='Limage de lœil gauche' {...style[7]} on={(a + b) * -c} />
      </fx:fog>
      <light path='C:\lab\101' xr:space='local-floor' id="n101" on={!hidden} data-seq={3655} />
      <mesh mask=<Quad w={1} h={8}/> id="n101" path='C:\lab\101' on={time.at(0.5) * speed + 1} name='El ojo derecho' />
      <caption>Der Raum ist dunkel.</caption>
    </video-wall>
  </Probe>
  <Portal.Gate.Frame data-seq={241} id="n2" on={(a + b) * -c} mask=<Quad w={1} h={6}/> path='C:\lab\2'>
    <Sound.Source fixed xr:space='local-floor'>
      <mesh {...style[8]} id="n202" mask=<Quad w={1} h={1}/>>
        <fx:fog xr:space='local-floor' data-seq={9954} name='Ångström & Ørsted' z={10.46} on={(a + b) * -c} />
        {!hidden ? <Probe {...style[1]} name='שמאל וימין' /> : null}
      </mesh>
      <fx:fog {...style[1]} name='左目と右目の画像' />
      <fx:fog data-seq={9188} path='C:\lab\202' y={10.38} on={visible} id="n202">
        <caption>Der Raum ist dunkel.</caption>
        {rows[0].draw(time.at(0.5) * speed + 1, 'k202')}
        {/* exhibit 202 */}
        <light mask=<Quad w={1} h={1}/> path='C:\lab\202' {...style[6]} on={visible} xr:space='local-floor' />
      </fx:fog>
      <caption>Осторожно, ступенька!</caption>
    </Sound.Source>
    {/* exhibit 2 */}
  </Portal.Gate.Frame>
</Hall>
