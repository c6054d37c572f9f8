// Included behind the text of lir_lower.rs, inside its module: what the rest
// of this crate needs of its private items. Nothing here lowers anything.

/// Where a variable or a static lies.
pub struct Laid {
    pub name: String,
    pub storage: usize,
    pub offset: usize,
    pub ty: hir::Type,
    pub bit: bool,
}

/// The lowering's state before an expression.
pub struct Start {
    function: hir::Function,
    storages: Vec<Storage<VirtualPlacement>>,
    variables: BTreeMap<String, Location>,
    statics: BTreeMap<String, Location>,
    next_temporary: usize,
}

/// A value, as `Value` has it.
pub struct Lowered {
    pub ty: hir::Type,
    pub repr: LoweredRepr,
}

pub enum LoweredRepr {
    Unit,
    Bit(BitOperand),
    Bytes(Vec<ByteOperand>),
    Aggregate(Vec<Lowered>),
}

/// What `lower_expression` returned and left behind.
pub struct Run {
    pub value: Lowered,
    pub storages: Vec<Storage<VirtualPlacement>>,
    pub instructions: Vec<Instruction>,
    pub next_temporary: usize,
}

impl Start {
    pub fn new(
        function: String,
        storages: Vec<Storage<VirtualPlacement>>,
        variables: Vec<Laid>,
        statics: Vec<Laid>,
        next_temporary: usize,
    ) -> Self {
        Self {
            function: hir::Function {
                name: function,
                parameters: Vec::new(),
                result: hir::Type::Unit,
                body: hir::Block {
                    statements: Vec::new(),
                },
            },
            storages,
            variables: locations(variables),
            statics: locations(statics),
            next_temporary,
        }
    }

    /// `lower_expression` from this state.
    pub fn lower_expression(&self, expression: &hir::Expression) -> Result<Run, LowerError> {
        let mut program = self.program();
        let mut lowerer = self.lowerer(&mut program);
        let value = lowerer.lower_expression(expression)?;
        let next_temporary = lowerer.next_temporary;
        let instructions = std::mem::take(&mut lowerer.blocks[0].instructions);
        Ok(Run {
            value: lowered(value),
            storages: program.storages,
            instructions,
            next_temporary,
        })
    }

    /// The offset that `resolve_place` gives.
    pub fn place_offset(&self, place: &hir::Place, ty: &hir::Type) -> Result<usize, LowerError> {
        let mut program = self.program();
        let location = self.lowerer(&mut program).resolve_place(place, ty)?;
        Ok(location.offset)
    }

    /// The offset that `resolve_place_base` gives.
    pub fn base_offset(&self, place: &hir::Place) -> Result<usize, LowerError> {
        let mut program = self.program();
        let location = self.lowerer(&mut program).resolve_place_base(place)?;
        Ok(location.offset)
    }

    fn program(&self) -> ProgramLowerer {
        ProgramLowerer {
            storages: self.storages.clone(),
            statics: Vec::new(),
            static_locations: self.statics.clone(),
            signatures: BTreeMap::new(),
            parameter_abis: Vec::new(),
            result_abis: Vec::new(),
        }
    }

    fn lowerer<'a>(&'a self, program: &'a mut ProgramLowerer) -> FunctionLowerer<'a> {
        let abi = FunctionAbi::default();
        let mut lowerer = FunctionLowerer::new(program, &self.function, FunctionKind::Normal, abi);
        lowerer.variables = self.variables.clone();
        lowerer.next_temporary = self.next_temporary;
        lowerer
    }
}

fn locations(laid: Vec<Laid>) -> BTreeMap<String, Location> {
    laid.into_iter()
        .map(|laid| {
            let location = Location {
                storage: StorageId(laid.storage),
                offset: laid.offset,
                ty: laid.ty,
                bit: laid.bit,
            };
            (laid.name, location)
        })
        .collect()
}

fn lowered(value: Value) -> Lowered {
    Lowered {
        ty: value.ty,
        repr: match value.repr {
            ValueRepr::Unit => LoweredRepr::Unit,
            ValueRepr::Bit(bit) => LoweredRepr::Bit(bit),
            ValueRepr::Bytes(bytes) => LoweredRepr::Bytes(bytes),
            ValueRepr::Aggregate(parts) => {
                LoweredRepr::Aggregate(parts.into_iter().map(lowered).collect())
            }
        },
    }
}
