// Lobby of the lab, recorded with the second headset.
/* Units are metres; the origin is the middle of the floor. */
<Stage.Room name='Lobby' size={size} {...defaults} lit>
  <Floor material="oak" repeat={4 * scale}/>
  <Wall side="north"><Window width={1.2} height={1.8} open={!night}/></Wall>
  <Wall side="south"><Door to="corridor" locked={locked || !badge.valid(user)}/></Wall>
  <Wall side="west"/><Wall side="east"/>
  <text at={origin} size={0.12}>Willkommen im Labor. Bitte Schuhe ausziehen!</text>
  <text at={origin} size={0.12}>Добро пожаловать в лабораторию.</text>
  <text at={origin} size={0.12}>研究室へようこそ。</text>
  <text at={origin} size={0.12}>Bienvenue au laboratoire : l'entrée est à gauche.</text>
  {guests[0] ? <Badge name={guests[0].name} level={guests[0].level + 1}/> : <Badge empty/>}
  {/* the clock is drawn by the headset itself */}
  <clock:face zone="Europe/Berlin" seconds={show('seconds', 2)}/>
</Stage.Room>
