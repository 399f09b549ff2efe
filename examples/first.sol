contract Counter {
  uint96 count;

  function increase() public {
    require(count < 10);
    count = count + 1;
    assert(count <= 10);
  }
}
