/// @notice invariant a == b
contract C {
    uint256 a; uint256 b;
    function up() public { require(b == a + 1); a = a + 1; }
}
