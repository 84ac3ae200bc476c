--  Reads the plan in the file that it is given and plays the marked cases m1 to m5 of plan A, m5 as document 02 has it, each from a fresh state. The file may
--  have plan A with a third number in its task line too. One line an answer: the word, remaining and margin, then 1 if late, else 0; for the end the word and
--  the late mark; or `refused` and the number.
with Ada.Command_Line;
with Ada.IO_Exceptions;
with Ada.Streams; use Ada.Streams;
with Ada.Streams.Stream_IO;
with Ada.Strings;
with Ada.Strings.Fixed;
with Ada.Text_IO;
with Interfaces;   use Interfaces;
with Interfaces.C; use Interfaces.C;
with Rolsipay;     use Rolsipay;

procedure Play is

   --  Points and readings of reports, in turn.
   type Reports is array (Positive range <>) of Unsigned_64;

   --  Room for one byte more than a plan may have, so that a longer one is seen to be.
   Text : Stream_Element_Array (1 .. Max_Text + 1);
   Last : Stream_Element_Offset;
   Row  : Leaves (0 .. Max_Leaves - 1);
   Head : aliased Head_Record;

   function Shown (N : Unsigned_64) return String is (Ada.Strings.Fixed.Trim (N'Image, Ada.Strings.Both));

   function Shown (N : Integer_64) return String is (Ada.Strings.Fixed.Trim (N'Image, Ada.Strings.Both));

   function Word (N : Unsigned_64) return String
   is (case N is when Go => "go", when Suspend => "suspend", when Stay => "stay", when Resume => "resume",
       when Ended => "ended", when others => "refused");

   --  A report's remaining is 1 at least, and an end's 0.
   procedure Print (R : Reply) is
   begin
      if R.Word = Refused then
         Ada.Text_IO.Put_Line ("refused " & Shown (R.Number));
      elsif R.Word = Ended or else (R.Word = Resume and then R.Remaining = 0) then
         Ada.Text_IO.Put_Line (Word (R.Word) & " " & Shown (R.Late));
      else
         Ada.Text_IO.Put_Line (Word (R.Word) & " " & Shown (R.Remaining) & " " & Shown (R.Margin) & " " & Shown (R.Late));
      end if;
   end Print;

   --  Plays the reports from a fresh state and, where a reading is given, the end.
   procedure Run (Name : String; Calls : Reports; Finally : Unsigned_64 := 0) is
      State : aliased State_Record;
   begin
      Ada.Text_IO.Put_Line (Name);
      Print (Release (Row'Address, Row'Length, Head'Access, State'Access));
      for I in 1 .. Calls'Length / 2 loop
         Print (Report (Row'Address, Row'Length, Head'Access, State'Access, Calls (2 * I - 1), Calls (2 * I)));
      end loop;
      if Finally > 0 then
         Print (Finish (Row'Address, Row'Length, Head'Access, State'Access, Finally));
      end if;
   end Run;

   --  Says it on standard error; the program ends with a failure.
   procedure Fail (Message : String) is
   begin
      Ada.Text_IO.Put_Line (Ada.Text_IO.Standard_Error, Message);
      Ada.Command_Line.Set_Exit_Status (Ada.Command_Line.Failure);
   end Fail;

   --  Reads the file into Text, as far as there is room; whether that could be done.
   function Fetched (Name : String) return Boolean is
      File : Ada.Streams.Stream_IO.File_Type;
   begin
      Ada.Streams.Stream_IO.Open (File, Ada.Streams.Stream_IO.In_File, Name);
      Ada.Streams.Stream_IO.Read (File, Text, Last);
      Ada.Streams.Stream_IO.Close (File);
      return True;
   exception
      when Ada.IO_Exceptions.Name_Error | Ada.IO_Exceptions.Use_Error | Ada.IO_Exceptions.Device_Error =>
         Fail (Name & ": cannot be opened or read");
         return False;
   end Fetched;

   Said : Ruling;
begin
   if Ada.Command_Line.Argument_Count /= 1 then
      Fail ("use: " & Ada.Command_Line.Command_Name & " PLAN");
      return;
   end if;
   if not Fetched (Ada.Command_Line.Argument (1)) then
      return;
   end if;
   Said := Read (Text'Address, size_t (Last), Row'Address, Row'Length, Head'Access);
   if Said.Number /= 0 then
      Ada.Text_IO.Put_Line ("refused " & Shown (Said.Number) & " " & Shown (Said.Line));
      Ada.Command_Line.Set_Exit_Status (Ada.Command_Line.Failure);
      return;
   end if;
   Ada.Text_IO.Put_Line
     ("task " & Shown (Head.Total) & " " & Shown (Head.Max_Load_Total) & " " & Shown (Head.Deadline) & " " & Shown (Head.Switching)
      & (if Head.Edition = 2 then " " & Shown (Head.Resuming) else ""));
   Run ("m1 m4 m5", (0, 0, 1, 9, 1, 33, 1, 50, 1, 88, 1, 88));
   Run ("m2", (0, 0, 1, 28));
   Run ("m2", (0, 0, 1, 29));
   Run ("m3", (0, 0, 1, 9, 1, 33, 1, 57, 1, 73), 81);
   Run ("m5", (0, 0, 1, 9, 1, 33, 1, 50, 1, 89));
end Play;
