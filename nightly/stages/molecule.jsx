<Molecule name="caffeine" formula='C8H10N4O2' style={view.style || "ball-and-stick"}>
  <atom el="N" x={0.47} y={2.57} z={0.0006}/><atom el="C" x={1.0} y={1.3} z={0}/>
  <atom el="O" x={-3.1} y={-0.4} z={0.0001}/><atom el="C" x={-2.3} y={0.5} z={-0.2}/>
  <bond from={0} to={1} order={1}/><bond from={1} to={2} order={2} aromatic/><bond from={2} to={3} order={1}/>
  <caption>Koffein &mdash; кофеин &mdash; カフェイン</caption>
  {selected(1).length * 2 - 1 ? <halo atoms={selected(1)} colour="#fc0"/> : <></>}
  {  }
  {/**/}
</Molecule>
