contract ManyCalls {
  uint96 count;

  function increase() public {
    require(count < 10);
    count = count + 1;
  }

  function check() public {
    assert(count < 10);
  }
}
