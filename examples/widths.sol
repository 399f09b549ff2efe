contract Widths {
  uint8 small;
  uint16 wide;

  function grow() public {
    require(small < 255);
    wide = small + 1;
    assert(wide <= 255);
    small = small - 1;
  }
}
