<calibration run={1} grid={cols * rows} on-fail={<retry after={3}/>}>
  <this.marker x={-1.5} y={0} z={-2}/>
  <this.marker x={0} y={0} z={-2}/>
  <this.marker x={1.5} y={0} z={-2}/>
  <report to="lab-7" as='csv' fields="x,y,z,err" decimal={4}/>
  { /* markers are numbered from the left */ }
  {
    // residuals above this are shown in red
    limit * 2 - offset
  }
  <svg:path d="M 0 0 L 10 10 Z" svg:fill="none" stroke-width='2' data-raw="a\b\n"/>
</calibration>
