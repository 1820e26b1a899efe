<keyboard layout="de" rows={4}>
<row><key>1</key><key>2</key><key>3</key><key>4</key><key>5</key><key>6</key><key>7</key><key>8</key><key>9</key><key>0</key><key>ß</key></row>
<row><key>q</key><key>w</key><key>e</key><key>r</key><key>t</key><key>z</key><key>u</key><key>i</key><key>o</key><key>p</key><key>ü</key><key>+</key></row>
<row><key>a</key><key>s</key><key>d</key><key>f</key><key>g</key><key>h</key><key>j</key><key>k</key><key>l</key><key>ö</key><key>ä</key><key>#</key></row>
<row><key>{'<'}</key><key>y</key><key>x</key><key>c</key><key>v</key><key>b</key><key>n</key><key>m</key><key>,</key><key>.</key><key>-</key><key>{"}"}</key></row>
<row><key wide {...mod} on-press={send(' ')} hint='blank'/><key wide on-press={send("enter".length)}/></row>
</keyboard>
