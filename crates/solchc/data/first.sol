contract C { uint96 x; function f() public { require(x < 10); x = x + 1; assert(x <= 10); } }
