<stage name="two views" units="m">
  <view eye="left" offset={-ipd * 0.5}>
    <camera fov={90} near={0.05} far={200}/>
  </view>
  <view eye="right" offset={ipd * 0.5}>
    <camera fov={90} near={0.05} far={200}/>
  </view>
</stage>
