contract TwoFunctions {
  uint96 limit;

  function reset() public {
    limit = 5;
  }

  function check() public {
    assert(limit <= 5);
  }
}
