// The types of this profile end at 96 bits.
contract Wallet {
  uint256 balance;
}
