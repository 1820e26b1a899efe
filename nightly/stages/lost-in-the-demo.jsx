<>
  <left-view id="l" at={head.left}><Layer depth={1} opacity={0.9}>{leftContent}</Layer></left-view>
  <right-view id="r" at={head.right}><Layer depth={1} opacity={0.9}>{rightContent}</Layer></right-view>
</>
