DefinitionBlock ("", "SSDT", 2, "RATTLE", "FIRST", 1)
{
    Name (ABCD, 0x12)
    Method (WXYZ, 0)
    {
        Return (0x34)
    }
}
